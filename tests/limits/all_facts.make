#!/usr/bin/env python3
# A program with 1,000,000 facts, as many as there may be. The main block makes 998 objects, puts them into a list, and
# calls the first of the list with it. For the analysis each of them may be called, and each of 998 parameters holds 998
# objects. There are 998 facts each that main holds them in a local and in the list, and that they are called, and one
# that main is live: 998 * 998 + 3 * 998 + 1. Each of 1,001 further locals holds one object.
OBJECTS, LOCALS = 998, 1_001
print("interface I { Unit m(List<I> all); } class C implements I { Unit m(List<I> all) { } }")
print("{ I first = new C(); List<I> all = Cons(first, Nil); I x;")
print("x = new C(); all = Cons(x, all);\n" * (OBJECTS - 1), end="")
print(*(f"I x{n} = first;" for n in range(LOCALS)), sep="\n")
print("head(all)!m(all); }")
