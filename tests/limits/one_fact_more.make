#!/bin/sh
# The program of all_facts.make with one local more, and so with 1,000,001 facts, one more than there may be.
"$(dirname "$0")/all_facts.make" | sed 's/^head(all)/I more = first; head(all)/'
