#!/bin/bash
# 1 class as the program generator writes them
. "$(dirname "$0")/../../bench/sources.sh"
programs_of 1
