#!/usr/bin/env python3
# The pairs at the foot of both towers have an interface and one that extends it, in both orders. So neither type of
# 2 ** 46 leaves fits the other one, and their join is a third one.
HEIGHT = 45
print("interface A { } interface B extends A { }\ndef Pair<T, T> dup<T>(T x) = Pair(x, x);")
one, other = ("dup(" * HEIGHT + foot + ")" * HEIGHT for foot in ("Pair(a, b)", "Pair(b, a)"))
print(f"def Bool same(A a, B b) =\n{one}\n== {other};\n{{ }}")
