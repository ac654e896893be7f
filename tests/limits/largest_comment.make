#!/usr/bin/env python3
# A source of 1,048,576 bytes, the most that a source may have: the bytes of a comment count too.
print("/*" + "a" * 1_048_568 + "*/ { }", end="")
