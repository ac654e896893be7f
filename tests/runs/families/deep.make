#!/usr/bin/env bash
# The family deep of bench/run, with 200 parts. The history was written by hand, from the order of one worker. The main
# block takes its cog, makes the object, calls and returns: 4. Task 1 takes its cog, calls `down`, prints and returns:
# 4. Each of the 200 calls declares, asks and returns, and all but the last one call: 799.
. "$(dirname -- "${BASH_SOURCE[0]}")/../../../bench/run_sources.sh"
deep_of 200
