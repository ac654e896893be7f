#!/bin/sh
# the source two_ways_round.abs among those of the pairs
exec cat "$(dirname "$0")/../pairs/two_ways_round.abs"
