#!/usr/bin/env python3
# 5,000 objects in cogs of their own, and a call on each, which prints its number. The main block has 20,004 events: it
# takes its cog, declares n, asks 5,001 times, does three statements 5,000 times, and returns. Each call has three more.
print("""interface Printer { Unit print(Int number); }
class Line implements Printer { Unit print(Int number) { println(toString(number)); } }
{
  Int n = 1;
  while (n <= 5000) {
    Printer line = new cog Line();
    line!print(n);
    n = n + 1;
  }
}""")
