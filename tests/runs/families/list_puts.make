#!/usr/bin/env bash
# The family list_puts of bench/run, with 49 parts. The history was written by hand, from the order of one worker. As
# that of sum_puts; the first worker has 25 puts, and the second one 24. So in the last round but one the second worker
# ends, and a single put is left.
. "$(dirname -- "${BASH_SOURCE[0]}")/../../../bench/run_sources.sh"
list_puts_of 49
