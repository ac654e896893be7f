#!/usr/bin/env python3
# 10,000 interfaces in a chain, each with a method of its own. The last one has the method of the first one too, with
# another type.
INTERFACES = 10_000
print("interface I0{Int m0();}")
for n in range(1, INTERFACES - 1):
    print(f"interface I{n} extends I{n - 1}{{Int m{n}();}}")
print(f"interface I{INTERFACES - 1} extends I{INTERFACES - 2}{{Unit m0();}}\n{{}}")
