#!/bin/sh
# the source two_sums.abs among the trees
exec cat "$(dirname "$0")/../trees/two_sums.abs"
