#!/bin/sh
# the source callback_to_main.abs among the trees
exec cat "$(dirname "$0")/../trees/callback_to_main.abs"
