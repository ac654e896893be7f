#!/usr/bin/env python3
# 10,000 calls of methods that an interface inherits from 2,000 others, which it extends.
INTERFACES = 2_000
CALLS = 10_000
for n in range(INTERFACES):
    print(f"interface I{n}{{Int m{n}(Int x);}}")
print("interface All extends " + ",".join(f"I{n}" for n in range(INTERFACES)) + "{Unit own();}\n{\nAll a;")
for n in range(CALLS):
    print(f"a!m{n * 7 % INTERFACES}({n});")
print("a!own();}")
