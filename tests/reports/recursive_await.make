#!/bin/sh
# the source recursive_await.abs among the trees
exec cat "$(dirname "$0")/../trees/recursive_await.abs"
