#!/usr/bin/env python3
# A call on `this` that is 1,000 deep: each call adds one to what the next one gives.
print("""interface Counter { Unit count(); }
class Deep implements Counter {
  Unit count() { Int depth = this.down(1000); println(toString(depth)); }
  Int down(Int left) {
    Int below = 0;
    if (left > 1) { below = this.down(left - 1); }
    return below + 1;
  }
}
{ Counter counter = new Deep(); counter!count(); }""")
