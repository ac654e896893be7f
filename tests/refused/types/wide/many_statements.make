#!/usr/bin/env python3
# A method of 50,000 statements that declare as many locals, of three types. Each value has locals from far before it.
STATEMENTS = 50_000
print("class C {\nInt m(Int a0,Bool a1,String a2) {")
for n in range(3, STATEMENTS + 3):
    far = 3 * (n // 6) + n % 3
    print(f"{['Int', 'Bool', 'String'][n % 3]} a{n}=a{far};", end="\n" * (n % 10 == 0))
print(f"return a{STATEMENTS // 3 * 3};\n}}\n}}\n{{}}")
