#!/usr/bin/env python3
# 10,000 interfaces in a chain, each with a method of its own, and one class that has all but that of the first one.
INTERFACES = 10_000
print("interface I0{Int m0();}")
for n in range(1, INTERFACES):
    print(f"interface I{n} extends I{n - 1}{{Int m{n}();}}")
print(f"class C implements I{INTERFACES - 1}{{")
for n in range(1, INTERFACES):
    print(f"Int m{n}(){{return {n};}}")
print("}\n{}")
