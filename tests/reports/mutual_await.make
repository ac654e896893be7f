#!/bin/sh
# the source await_before_get.abs among the trees
exec cat "$(dirname "$0")/../trees/await_before_get.abs"
