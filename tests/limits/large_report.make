#!/usr/bin/env python3
# A source of 102,400 bytes on one line. A ring of 100 objects, of which each gets from the next one, is a circular chain
# of 100 pairs, and with each pair the report quotes the line: more than 10 MB in all. A comment fills the line up.
OBJECTS, BYTES = 100, 102_400
source = "interface N { Unit set(N n); Unit go(); } class C implements N { N next; Unit set(N n) { next = n; } "
source += "Unit go() { Fut<Unit> f = next!go(); f.get; } } { "
source += "".join(f"N o{n} = new cog C(); " for n in range(OBJECTS))
source += "".join(f"o{n}!set(o{(n + 1) % OBJECTS}); " for n in range(OBJECTS)) + "o0!go(); } //"
print(source.ljust(BYTES, "."), end="")
