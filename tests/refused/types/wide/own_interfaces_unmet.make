#!/usr/bin/env python3
# 10,000 classes, each of which implements an interface of its own. The last one has the method of the interface before.
CLASSES = 10_000
for n in range(CLASSES):
    own = f"I{n:04}"
    taken = f"I{n - (n == CLASSES - 1):04}"
    print(f"interface {own}{{Int m({own} x);}}class C{n:04} implements {own}{{Int m({taken} x){{return 1;}}}}")
print("{}")
