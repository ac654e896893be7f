#!/usr/bin/env python3
# 10,000 interfaces that each declare a method of one name. Half of them extend another one, with the same types. So
# the name has 5,000 signatures, and no two of them meet.
PAIRS = 5_000
for n in range(PAIRS):
    print(f"interface I{n}{{Unit m(I{n} x);}}\ninterface J{n} extends I{n}{{Unit m(I{n} y);}}")
print("class C implements J0{Unit m(I0 x){}}\n{J0 a=new C();a!m(a);}")
