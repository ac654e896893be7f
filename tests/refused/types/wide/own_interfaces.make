#!/usr/bin/env python3
# 10,000 classes, each of which implements an interface of its own. All interfaces have a method of one name.
CLASSES = 10_000
for n in range(CLASSES):
    print(f"interface I{n}{{Int m(I{n} x);}}class C{n} implements I{n}{{Int m(I{n} x){{return {n};}}}}")
last = CLASSES - 1
print(f"{{I{last} a=new C{last}();Fut<Int> f=a!m(a);}}")
