#!/usr/bin/env python3
# Values whose types are towers of pairs with 2 ** 46 leaves are compared. The leaves are of an interface, and of one
# that extends it.
HEIGHT = 46
print("interface A { } interface B extends A { }\ndef Pair<T, T> dup<T>(T x) = Pair(x, x);")
upper, lower = ("dup(" * HEIGHT + leaf + ")" * HEIGHT for leaf in "ab")
print(f"def Bool same(A a, B b) =\n{upper}\n== {lower};\ndef Bool turned(A a, B b) =\n{lower}\n!= {upper};\n{{ }}")
