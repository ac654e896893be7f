#!/usr/bin/env python3
# 47 cases, each in a branch of the one before it. Each wraps two variables as often as the limit of nesting allows, and
# each wrap adds 99 data types. At last two values are compared whose types are 111,672 data types deep.
result = "Maybe<" * 99 + "T" + ">" * 99
print(f"interface A {{ }} interface B extends A {{ }}\ndef {result} wrap<T>(T x) = head(Nil);\ndef Bool same(A x0, B y0) =")
for n in range(1, 48):
    x, y = ("wrap(" * (48 - n) + f"{leaf}{n - 1}" + ")" * (48 - n) for leaf in "xy")
    print(f"case Pair({x}, {y}) {{ Pair(x{n}, y{n}) =>")
print("x47 == y47" + "; }" * 47 + ";\n{ }")
