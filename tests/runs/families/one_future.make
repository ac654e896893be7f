#!/usr/bin/env bash
# The family one_future of bench/run, with 90 parts. The history was written by hand, from the order of one worker. The
# main block takes its cog, makes two objects, calls, declares, asks 91 times, calls and counts 90 times, and returns:
# 277. Task 1 takes its cog and suspends. Each of the others takes the other cog and lets it go at the await. Then it is
# the turn of task 1, which takes its cog and returns. Each of the others takes the cog, passes the await and returns.
. "$(dirname -- "${BASH_SOURCE[0]}")/../../../bench/run_sources.sh"
one_future_of 90
