#!/usr/bin/env bash
# What prints the sources of the families of runs: a function for each family, which takes the number of its parts. The
# sources are short, since what they have many of is made in loops, and they are the same at each call. bench/run measures
# them, and tests/runs/families has small ones. A comment says what events a family has: besides those that it names, the
# main block takes its cog and returns, and a `while` asks once more than it goes round.

# Prints a loop that goes round $1 times, two events each.
counting_of() {
    echo "{ Int i = 0; while (i < $1) { i = i + 1; } }"
}

# Prints a buffer in a cog of its own, and two workers in theirs, which put $1 numbers into it and await each put. The
# buffer keeps a value of the type $2, which is $3 at first, and which a put sets to $4. Each put has nine events: six of
# the worker, which lets its cog go and takes it again, and three of its own.
puts_of() {
    cat <<END
interface Buffer { Unit put(Int number); }
class Keeper implements Buffer {
  $2 kept = $3;
  Unit put(Int number) { kept = $4; }
}
class Worker(Buffer buffer, Int count) {
  Unit run() {
    Int i = 0;
    while (i < count) { Fut<Unit> f = buffer!put(i); await f?; i = i + 1; }
  }
}
{
  Buffer buffer = new cog Keeper();
  new cog Worker(buffer, $((($1 + 1) / 2)));
  new cog Worker(buffer, $(($1 / 2)));
}
END
}
sum_puts_of() {
    puts_of "$1" Int 0 "kept + number"
}
list_puts_of() {
    puts_of "$1" "List<Int>" Nil "Cons(number, kept)"
}

# Prints a main block that sends $1 numbers to one object in another cog, which adds them, and waits for none: three
# events to send each, and three to add it.
messages_of() {
    cat <<END
interface Sum { Unit add(Int number); }
class Adder implements Sum {
  Int sum = 0;
  Unit add(Int number) { sum = sum + number; }
}
{ Sum sum = new cog Adder(); Int i = 0; while (i < $1) { sum!add(i); i = i + 1; } }
END
}

# Prints $1 tasks of one cog that await one future. Its task is of another cog, and suspends once: so each of them comes
# to its `await` before it ends. Three events to send for each, and five of its own.
one_future_of() {
    cat <<END
interface Gate { Unit open(); Unit pass(Fut<Unit> opened); }
class Keeper implements Gate {
  Unit open() { suspend; }
  Unit pass(Fut<Unit> opened) { await opened?; }
}
{
  Gate door = new cog Keeper();
  Gate hall = new cog Keeper();
  Fut<Unit> opened = door!open();
  Int i = 0;
  while (i < $1) { hall!pass(opened); i = i + 1; }
}
END
}

# Prints $1 tasks of one cog that await a future each. The futures are those of as many tasks of another cog, of which each
# makes the next one, and awaits it. So they end in the reverse order, one by one, and after each comes the turn of the one
# that awaits it in the first cog. Each of the two has eight events, and five.
own_futures_of() {
    cat <<END
interface Gate { Unit open(Int left, Gate hall); Unit pass(Fut<Unit> opened); }
class Keeper implements Gate {
  Unit open(Int left, Gate hall) {
    if (left > 0) { Fut<Unit> next = this!open(left - 1, hall); hall!pass(next); await next?; }
  }
  Unit pass(Fut<Unit> opened) { await opened?; }
}
{ Gate doors = new cog Keeper(); Gate hall = new cog Keeper(); doors!open($1, hall); }
END
}

# Prints $1 tasks of one cog that await a future each. The futures are those of as many tasks of another cog, which
# suspend once, and then end in the order in which they were made. Those that wait are made in another order: first one
# for every second future, from the last of these on, and then one for each of the rest, from the last on. For each of the
# futures five events make its task, which has four; three events make the task that awaits it, which has five.
mixed_futures_of() {
    cat <<END
interface Gate { Unit open(); Unit pass(Fut<Unit> opened); }
class Keeper implements Gate {
  Unit open() { suspend; }
  Unit pass(Fut<Unit> opened) { await opened?; }
}
{
  Gate doors = new cog Keeper();
  Gate hall = new cog Keeper();
  List<Fut<Unit>> even = Nil;
  List<Fut<Unit>> odd = Nil;
  Int i = 0;
  while (i < $1) {
    Fut<Unit> opened = doors!open();
    if (i % 2 == 0) even = Cons(opened, even); else odd = Cons(opened, odd);
    i = i + 1;
  }
  while (even != Nil) { hall!pass(head(even)); even = tail(even); }
  while (odd != Nil) { hall!pass(head(odd)); odd = tail(odd); }
}
END
}

# Prints $1 active objects, each in a cog of its own: three events to make each, and three of its task.
active_of() {
    cat <<END
class Active {
  Int count = 0;
  Unit run() { count = count + 1; }
}
{ Int i = 0; while (i < $1) { new cog Active(); i = i + 1; } }
END
}

# Prints $1 active objects whose tasks suspend in turn, ten rounds of four events each; besides, a task has four events,
# and three make it. All are in the cog of the main block, or each in its own, where $2 is `cog`.
turns_of() {
    cat <<END
class Turner {
  Unit run() { Int i = 0; while (i < 10) { i = i + 1; suspend; } }
}
{ Int i = 0; while (i < $1) { new ${2:+$2 }Turner(); i = i + 1; } }
END
}
turns_in_one_cog_of() {
    turns_of "$1" ""
}
turns_in_own_cogs_of() {
    turns_of "$1" cog
}

# Prints a call on `this` that is $1 deep, each of which adds one to what the next one gives: four events each.
deep_of() {
    cat <<END
interface Counter { Unit count(); }
class Deep implements Counter {
  Int down(Int left) { Int below = 0; if (left > 1) below = this.down(left - 1); return below + 1; }
  Unit count() { Int depth = this.down($1); println(toString(depth)); }
}
{ Counter counter = new Deep(); counter!count(); }
END
}

# Prints a loop that prints a string of 100 bytes $1 times, three events each.
printed_lines_of() {
    echo "{ Int i = 0; while (i < $1) { println(\"$(printf '%0100d' 0)\"); i = i + 1; } }"
}
