#!/usr/bin/env python3
# A sum of 100,000 numbers.
print("{println(toString(1" + "+1" * 99_999 + "));}", end="")
