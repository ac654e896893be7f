#!/usr/bin/env python3
# 47 cases, each in a branch of the one before it, and each with a pair of the variable before. A pair of the last
# variable but two and of the last but one is compared with the last one: in their first parts a leaf meets a pair, so
# there is no join. The comparison is on line 49, after that of the function and those of the cases.
DEPTH = 47
print("def Bool same(Int v0) =")
for n in range(DEPTH):
    print(f"case Pair(v{n}, v{n}) {{ v{n + 1} =>")
print(f"v{DEPTH} == Pair(v{DEPTH - 2}, v{DEPTH - 1})" + "; }" * DEPTH + ";\n{ }")
