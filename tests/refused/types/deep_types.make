#!/usr/bin/env python3
# Values are compared whose types are 46 * 99 data types deep. The leaves are of an interface, and of one that extends
# it.
DEPTH = 46
result = "Maybe<" * 99 + "T" + ">" * 99
print(f"interface A {{ }} interface B extends A {{ }}\ndef {result} wrap<T>(T x) = head(Nil);")
upper, lower = ("wrap(" * DEPTH + leaf + ")" * DEPTH for leaf in "ab")
print(f"def Bool same(A a, B b) =\n{lower}\n== {upper};\n{{ }}")
