#!/bin/sh
# the source division_by_zero.abs among the trees
exec cat "$(dirname "$0")/../trees/division_by_zero.abs"
