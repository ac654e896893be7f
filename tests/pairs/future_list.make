#!/bin/sh
# the source of the same name among the trees
exec cat "$(dirname "$0")/../trees/future_list.abs"
