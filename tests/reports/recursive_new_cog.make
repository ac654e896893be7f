#!/bin/sh
# the source recursive_new_cog.abs among the trees
exec cat "$(dirname "$0")/../trees/recursive_new_cog.abs"
