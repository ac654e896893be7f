#!/usr/bin/env bash
# The family printed_lines of bench/run, with 300 parts. The history was written by hand, from the order of one worker.
# The main block takes its cog, declares, asks 301 times, prints and counts 300 times, and returns.
. "$(dirname -- "${BASH_SOURCE[0]}")/../../../bench/run_sources.sh"
printed_lines_of 300
