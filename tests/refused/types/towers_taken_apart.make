#!/usr/bin/env python3
# The branches of a case have types that are towers of pairs with 2 ** 46 leaves, of an interface and of one that
# extends it. The pattern of a case around it takes their join apart, down to a leaf: that is of the interface.
HEIGHT = 46
print("interface A { } interface B extends A { }\ndef Pair<T, T> dup<T>(T x) = Pair(x, x);")
upper, lower = ("dup(" * HEIGHT + leaf + ")" * HEIGHT for leaf in "ab")
pattern = "Pair(" * HEIGHT + "leaf" + ", _)" * HEIGHT
print(f"def A first(Int n, A a, B b) =\ncase case n {{\n1 => {lower};\n_ => {upper}; }} {{")
print(f"{pattern} => leaf; }};\n{{ }}")
