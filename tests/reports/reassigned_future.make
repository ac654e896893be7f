#!/bin/sh
# the source reassigned_future.abs among the trees
exec cat "$(dirname "$0")/../trees/reassigned_future.abs"
