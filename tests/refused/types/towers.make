#!/usr/bin/env python3
# Two values whose types are one tower of pairs with 2 ** 46 leaves are compared.
HEIGHT = 46
print("def Pair<T, T> dup<T>(T x) = Pair(x, x);")
tower = "dup(" * HEIGHT + "leaf" + ")" * HEIGHT
print(f"def Bool same(Int leaf) =\n{tower}\n== {tower};\n{{ }}")
