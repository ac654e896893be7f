#!/usr/bin/env python3
# A method of 50,000 statements that declare as many locals, each with the value of the one before it. The last one is
# of another type.
STATEMENTS = 50_000
print("class C {\nUnit m(Int a10000) {", end="")
for n in range(10_001, 10_000 + STATEMENTS):
    print(f"Int a{n}=a{n - 1};")
print(f"String a{10_000 + STATEMENTS}=a{n};\n}}\n}}\n{{}}")
