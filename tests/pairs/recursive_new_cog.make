#!/bin/sh
# the source of the same name among the trees
exec cat "$(dirname "$0")/../trees/recursive_new_cog.abs"
