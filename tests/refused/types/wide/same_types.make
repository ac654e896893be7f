#!/usr/bin/env python3
# 10,000 interfaces that each declare the same method, one that extends them all, one more that extends this one, and a
# class that implements all of them.
INTERFACES = 10_000
for n in range(INTERFACES):
    print(f"interface I{n}{{Int m(Int x,List<I0> y);}}")
names = ",".join(f"I{n}" for n in range(INTERFACES))
print(f"interface All extends {names}{{}}\ninterface Last extends All{{Int m(Int a,List<I0> b);}}")
print(f"class C implements Last,{names}{{Int m(Int x,List<I0> y){{return x;}}}}\n{{Last a=new C();a!m(1,Nil);}}")
