#!/usr/bin/env python3
# A source of 1,048,576 bytes, the most that a source may have: blanks before a main block.
print(" " * 1_048_573 + "{ }", end="")
