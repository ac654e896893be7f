#!/bin/sh
# the source self_get.abs among the trees
exec cat "$(dirname "$0")/../trees/self_get.abs"
