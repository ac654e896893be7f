#!/usr/bin/env python3
# The same, but the value must be of the interface that extends the other one: the case around it is on line 4.
HEIGHT = 46
print("interface A { } interface B extends A { }\ndef Pair<T, T> dup<T>(T x) = Pair(x, x);")
upper, lower = ("dup(" * HEIGHT + leaf + ")" * HEIGHT for leaf in "ab")
pattern = "Pair(" * HEIGHT + "leaf" + ", _)" * HEIGHT
print(f"def B first(Int n, A a, B b) =\ncase case n {{\n1 => {lower};\n_ => {upper}; }} {{")
print(f"{pattern} => leaf; }};\n{{ }}")
