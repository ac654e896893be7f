#!/bin/bash
# 3 classes as the program generator writes them
. "$(dirname "$0")/../../bench/sources.sh"
programs_of 3
