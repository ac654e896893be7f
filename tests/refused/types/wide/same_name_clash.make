#!/usr/bin/env python3
# 10,000 interfaces that each declare a method of one name. Half of them extend another one, with the same types but for
# the last one: its method takes an interface that extends the one which is asked for.
PAIRS = 5_000
for n in range(PAIRS):
    taken = "IJ"[n == PAIRS - 1]
    print(f"interface I{n}{{Unit m(I{n} x);}}\ninterface J{n} extends I{n}{{Unit m({taken}{n} y);}}")
print("{}")
