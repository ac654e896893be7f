#!/usr/bin/env python3
# One class of 10,000 methods, each of which calls the next one and one far from it through `this`, in both ways.
METHODS = 10_000
print("class C {")
for n in range(METHODS):
    far = (n + METHODS // 2) % METHODS
    print(f"Int m{n}(Int x){{Int y=this.m{(n + 1) % METHODS}(x);Fut<Int> f=this!m{far}(y);return y;}}")
print("}\n{}")
