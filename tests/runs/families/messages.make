#!/usr/bin/env bash
# The family messages of bench/run, with 120 parts. The history was written by hand, from the order of one worker. The
# main block takes its cog, makes the object, declares, asks 121 times, calls and counts 120 times, and returns: 365.
# Then each message has its turn, in the order in which they were sent: it takes the cog, adds and returns.
. "$(dirname -- "${BASH_SOURCE[0]}")/../../../bench/run_sources.sh"
messages_of 120
