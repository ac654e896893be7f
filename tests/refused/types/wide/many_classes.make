#!/usr/bin/env python3
# 5,000 classes that implement one interface, each with an object of the one before it; a main block makes one of each.
CLASSES = 5_000
print("interface Stage{Int go(Int x);}")
for n in range(CLASSES):
    body = "Fut<Int> f=next!go(x+1);await f?;Int r=f.get;return r;"
    print(f"class C{n}(Stage next) implements Stage{{Int go(Int x){{{body}}}}}")
print("{Stage s0=new cog C0(null);")
for n in range(1, CLASSES):
    print(f"Stage s{n}=new cog C{n}(s{n - 1});")
print("}")
