#!/bin/sh
# the source await_then_own_get.abs among those of the pairs
exec cat "$(dirname "$0")/../pairs/await_then_own_get.abs"
