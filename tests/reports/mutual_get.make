#!/bin/sh
# the source mutual_get.abs among the trees
exec cat "$(dirname "$0")/../trees/mutual_get.abs"
