#!/usr/bin/env bash
# The family turns_in_one_cog of bench/run, with 20 parts. The history was written by hand, from the order of one
# worker. The main block takes its cog, declares, asks 21 times, makes an object and counts 20 times, and returns: 64.
# In its first turn a task takes its cog, declares, asks, counts and suspends: 5. In its next nine turns it takes its
# cog, asks, counts and suspends: 4. In its last one it takes its cog, asks and returns: 3.
. "$(dirname -- "${BASH_SOURCE[0]}")/../../../bench/run_sources.sh"
turns_in_one_cog_of 20
