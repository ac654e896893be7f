#!/usr/bin/env python3
# One class of 10,000 methods, each of which calls the next one through `this`. There is none after the last one.
METHODS = 10_000
print("class C {")
for n in range(METHODS):
    print(f"Int m{n:04}(Int x){{Int y=this.m{n + 1:04}(x);return y;}}")
print("}\n{}")
