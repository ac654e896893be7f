#!/usr/bin/env python3
# A source of 1,048,577 bytes, one more than a source may have: blanks before a main block.
print(" " * 1_048_574 + "{ }", end="")
