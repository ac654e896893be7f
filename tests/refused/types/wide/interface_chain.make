#!/usr/bin/env python3
# 10,000 interfaces in a chain, each with a method of its own, and one class that has all. So the last interface
# inherits all methods, and all interfaces together inherit 50 million.
INTERFACES = 10_000
print("interface I0{Int m0();}")
for n in range(1, INTERFACES):
    print(f"interface I{n} extends I{n - 1}{{Int m{n}();}}")
print(f"class C implements I{INTERFACES - 1}{{")
for n in range(INTERFACES):
    print(f"Int m{n}(){{return {n};}}")
print(f"}}\n{{I{INTERFACES - 1} a=new C();Int x=a.m0();a!m{INTERFACES - 1}();}}")
