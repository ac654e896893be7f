#!/usr/bin/env bash
# The family mixed_futures of bench/run, with 40 parts. The history was written by hand, from the order of one worker. The
# main block takes its cog, makes two objects and declares three times: 6. It asks 41 times, and 40 times it calls,
# asks, assigns and counts: 201. In the two loops after that it asks 42 times, and calls and assigns 40 times: 122. With
# its return that is 330. Tasks 1 to 40 take their cog and suspend, 41 to 80 take theirs and let it go at the await.
# Then 1 to 40 take their cog and return, and 41 to 80 take theirs, pass the await and return.
. "$(dirname -- "${BASH_SOURCE[0]}")/../../../bench/run_sources.sh"
mixed_futures_of 40
