#!/usr/bin/env python3
# A ladder of 10,000 interfaces: each two extend both of the two before them. So there are 2 ** 4,999 ways from the last
# to the first. The class at the end has the methods of all.
RUNGS = 5_000
print("interface L0{Int l0();}\ninterface R0{Int r0();}")
for n in range(1, RUNGS):
    before = f"extends L{n - 1},R{n - 1}"
    print(f"interface L{n} {before}{{Int l{n}();}}\ninterface R{n} {before}{{Int r{n}();}}")
print(f"class C implements L{RUNGS - 1},R{RUNGS - 1}{{")
for n in range(RUNGS):
    print(f"Int l{n}(){{return {n};}}Int r{n}(){{return {n};}}")
print(f"}}\n{{R{RUNGS - 1} a=new C();Int x=a.l0();L0 b=a;b!l0();}}")
