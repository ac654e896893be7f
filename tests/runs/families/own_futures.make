#!/usr/bin/env bash
# The family own_futures of bench/run, with 40 parts. The history was written by hand, from the order of one worker. The
# main block takes its cog, makes two objects, calls and returns: 5. Task 1 is the first `open`. Each `open` takes its
# cog, asks, calls twice and lets its cog go at the await: 5. The tasks that it makes are the next `open` with an even
# index, and the `pass` after it, which takes its cog and lets it go at the await: 2. The last `open` is task 80, which
# takes its cog, asks and returns; and task 81 takes its cog, passes the await at once and returns. Then the turn goes
# round to 78, of which alone the future has come: it takes its cog, passes the await and returns, and 79 does so after
# it. And so on to 2 and 3, and last to 1.
. "$(dirname -- "${BASH_SOURCE[0]}")/../../../bench/run_sources.sh"
own_futures_of 40
