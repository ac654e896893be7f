#!/usr/bin/env bash
# The family counting of bench/run, with 500 parts. The history was written by hand, from the order of one worker. The
# main block has all events: it takes its cog, declares, asks 501 times, counts 500 times, and returns.
. "$(dirname -- "${BASH_SOURCE[0]}")/../../../bench/run_sources.sh"
counting_of 500
