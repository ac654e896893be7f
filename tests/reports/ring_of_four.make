#!/bin/sh
# the source ring_of_four.abs among those of the pairs
exec cat "$(dirname "$0")/../pairs/ring_of_four.abs"
