#!/usr/bin/env python3
# A run of 100,001 events, one more than a run may have: after 100,000 the main block has not returned.
print("{Int x=1;" + "x=x;" * 99_998 + "}", end="")
