#!/usr/bin/env python3
# A class of 10,000 fields of three types, each with the value of one far before it, and 10,000 methods that assign one
# from another one.
FIELDS = 10_000
TYPES = ["Int", "Bool", "Fut<Int>"]
print("class C(Int f0,Bool f1,Fut<Int> f2) {")
for n in range(3, FIELDS):
    print(f"{TYPES[n % 3]} f{n}=f{3 * (n // 6) + n % 3};")
for n in range(3, FIELDS):
    print(f"Unit m{n}({TYPES[n % 3]} x){{f{n}=x;this.f{n - 3}=f{n};}}")
print("}\n{}")
