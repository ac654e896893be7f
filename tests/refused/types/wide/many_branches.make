#!/usr/bin/env python3
# A method of 20,000 conditions with two branches each, and in each a local of its own type. Its body ends without a
# value.
CONDITIONS = 20_000
print("class C {\nInt m(Int n) {")
for n in range(CONDITIONS):
    print(f"if(n<{n}){{Int x=n;}}else{{String x=\"a\";}}")
print("}\n}\n{}")
