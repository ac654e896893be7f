#!/bin/sh
# the source buffer_and_workers.abs among the trees
exec cat "$(dirname "$0")/../trees/buffer_and_workers.abs"
