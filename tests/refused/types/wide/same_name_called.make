#!/usr/bin/env python3
# 10,000 interfaces that each declare a method of one name with types of its own, and a call of each of them in the main
# block. The last call gives what the one before takes.
INTERFACES = 10_000
for n in range(INTERFACES):
    print(f"interface I{n}{{Int m(Fut<I{n}> x);}}")
print("{" + "".join(f"I{n} a{n};Fut<I{n}> f{n};a{n}!m(f{n});" for n in range(INTERFACES)))
print(f"a{INTERFACES - 1}!m(f{INTERFACES - 2});}}")
