#!/bin/sh
# the source future_list.abs among the trees
exec cat "$(dirname "$0")/../trees/future_list.abs"
