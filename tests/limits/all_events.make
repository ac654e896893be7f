#!/usr/bin/env python3
# A run of 100,000 events, the most that a run may have: one takes the cog, 99,998 are statements, and one returns.
print("{Int x=1;" + "x=x;" * 99_997 + "}", end="")
