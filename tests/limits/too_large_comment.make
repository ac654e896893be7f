#!/usr/bin/env python3
# A source of 1,048,577 bytes, one more than a source may have: the bytes of a comment count too.
print("/*" + "a" * 1_048_569 + "*/ { }", end="")
