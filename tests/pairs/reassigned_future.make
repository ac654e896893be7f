#!/bin/sh
# the source of the same name among the trees
exec cat "$(dirname "$0")/../trees/reassigned_future.abs"
