#!/usr/bin/env python3
# 47 cases, each in a branch of the one before it, and each with a pair of the variable before. So the type of the last
# variable has 2 ** 47 leaves.
DEPTH = 47
print("def Bool same(Int v0) =")
for n in range(DEPTH):
    print(f"case Pair(v{n}, v{n}) {{ v{n + 1} =>")
print(f"v{DEPTH} == Pair(v{DEPTH - 1}, v{DEPTH - 1})" + "; }" * DEPTH + ";\n{ }")
