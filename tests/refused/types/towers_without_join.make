#!/usr/bin/env python3
# Values whose types are towers of pairs with 2 ** 46 leaves are compared. The leaves are of two interfaces that have no
# join. The comparison begins on line 4.
HEIGHT = 46
print("interface A { } interface B { }\ndef Pair<T, T> dup<T>(T x) = Pair(x, x);")
one, other = ("dup(" * HEIGHT + leaf + ")" * HEIGHT for leaf in "ab")
print(f"def Bool same(A a, B b) =\n{one}\n== {other};\n{{ }}")
