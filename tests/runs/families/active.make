#!/usr/bin/env bash
# The family active of bench/run, with 100 parts. The history was written by hand, from the order of one worker. The
# main block takes its cog, declares, asks 101 times, makes an object and counts 100 times, and returns: 304. Each task
# takes its cog, counts and returns.
. "$(dirname -- "${BASH_SOURCE[0]}")/../../../bench/run_sources.sh"
active_of 100
