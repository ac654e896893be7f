#!/usr/bin/env python3
# Values are compared whose types are 46 * 99 data types deep, of a number and of a string: they have no join. The
# comparison begins on line 3.
DEPTH = 46
result = "Maybe<" * 99 + "T" + ">" * 99
print(f"def {result} wrap<T>(T x) = head(Nil);")
number, string = ("wrap(" * DEPTH + leaf + ")" * DEPTH for leaf in ("1", '"1"'))
print(f"def Bool same() =\n{number}\n== {string};\n{{ }}")
