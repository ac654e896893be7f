#!/usr/bin/env bash
# The family sum_puts of bench/run, with 100 parts. The history was written by hand, from the order of one worker. After
# the 5 events of the main block each worker takes its cog, declares, asks, calls and lets its cog go at the await: 5.
# The two puts have 3 each. In each later turn a worker takes its cog, passes the await, counts, asks, calls and lets
# its cog go: 6; after its last put it takes its cog, passes, counts, asks and returns: 5. Puts are tasks 3, 4 and so
# on, in turn, since the workers come before them in each round.
. "$(dirname -- "${BASH_SOURCE[0]}")/../../../bench/run_sources.sh"
sum_puts_of 100
