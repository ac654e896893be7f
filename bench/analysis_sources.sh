#!/usr/bin/env bash
# What prints the sources of the families of the analysis that sources.sh does not have: a function for each family, which
# takes the numbers of its parts. They are the same at each call. bench/run measures them, and tests/families has small
# ones. A comment says how many facts and pairs a family has. Each object is in a cog of its own where nothing else is
# said, one fact is that main is live, and one chain of a pair is a `get` that holds the cog of the task it waits for.

# Prints $1 objects in a list, which a statement each puts there, and a call of its head with this list. To the analysis
# each object may be the head: n * n + 3 * n + 1 facts, for the objects in main, in its list, and as what is called, and
# for each parameter every object.
list_of() {
    LC_ALL=C awk -v objects="$1" 'BEGIN {
        print "interface O { Unit m(List<O> l); }\nclass C implements O { Unit m(List<O> l) { } }\n{"
        print "List<O> l = Nil;"
        for (n = 1; n <= objects; n++) print "O o" n " = new cog C();\nl = Cons(o" n ", l);"
        print "head(l)!m(l);\n}"
    }'
}

# Prints $1 objects that are called, their futures in one local, and one `get` of it, whose result is any of the objects:
# 5 * n + 1 facts, for the object, the call, the future, what it gives and the result. The `get` has a pair for each.
results_of() {
    LC_ALL=C awk -v objects="$1" 'BEGIN {
        print "interface O { O m(); }\nclass C implements O { O m() { return this; } }\n{\nFut<O> f;"
        for (n = 1; n <= objects; n++) print "O o" n " = new cog C();"
        for (n = 1; n <= objects; n++) print "f = o" n "!m();"
        print "O r = f.get;\n}"
    }'
}

# Prints $1 makers in the cog of main, each called with a local that holds $2 objects. A maker makes one object in its
# cog, by one statement, so all of these have one sign. It has m parameters, and m fields with an initial value from one
# of them each, and all hold every object: 2 * m * m + n * (m + 2) + m + 1 facts.
one_sign_of() {
    LC_ALL=C awk -v makers="$1" -v objects="$2" 'BEGIN {
        for (m = 1; m <= objects; m++) {
            parameters = parameters (m > 1 ? ", " : "") "O p" m
            fields = fields "O x" m " = p" m ";\n"
            arguments = arguments (m > 1 ? ", " : "") "o"
        }
        print "interface O { }\nclass C implements O { }\nclass D(" parameters ") {\n" fields "}"
        print "interface Maker { Unit make(O o); }"
        print "class K implements Maker { Unit make(O o) { new D(" arguments "); } }\n{\nO o;"
        for (m = 1; m <= objects; m++) print "o = new cog C();"
        for (n = 1; n <= makers; n++) print "Maker k" n " = new K();\nk" n "!make(o);"
        print "}"
    }'
}

# Prints a class of $1 methods, of which each calls the next one on `this`, and main calls the first one. They are declared
# in their order, or from the last on, where $2 is `backward`. $3 is what each does before. Without that there are n + 2
# facts: main holds the object, and all methods are live.
own_calls_in_order_of() {
    LC_ALL=C awk -v methods="$1" -v order="$2" -v before="$3" 'BEGIN {
        print "interface O { Unit m1(); }\nclass C implements O {\nUnit q() { }"
        for (n = 1; n <= methods; n++) {
            method = order == "backward" ? methods + 1 - n : n
            print "Unit m" method "() {" before (method < methods ? " this.m" method + 1 "();" : "") " }"
        }
        print "}\n{\nO o = new cog C();\no!m1();\n}"
    }'
}
own_calls_forward_of() {
    own_calls_in_order_of "$1" forward ""
}
own_calls_backward_of() {
    own_calls_in_order_of "$1" backward ""
}

# Prints the same with a message to `this` before each call, which the method awaits: 2 * n + 3 facts, since each method
# holds a future too, and what they send is live. The `await` of each has a pair.
own_calls_await_of() {
    own_calls_in_order_of "$1" forward " Fut<Unit> f = this!q(); await f?;"
}

# Prints $1 classes, of which each makes an object of every class and calls it; main begins with one of the first class.
# At depth 1 an object has one of the n * n places in the classes, or that in main, and at depth 2 each of these places
# comes after each that makes its class. So k = n * n + 1 or k = n * n * n + n + 1 methods are live, which hold n objects
# each: k * (n + 1) + 2 facts.
names_of() {
    LC_ALL=C awk -v classes="$1" 'BEGIN {
        print "interface I { Unit go(); }"
        for (n = 1; n <= classes; n++) {
            print "class C" n " implements I {\nUnit go() {"
            for (m = 1; m <= classes; m++) print "I x" m " = new cog C" m "(); x" m "!go();"
            print "}\n}"
        }
        print "{\nI x = new cog C1();\nx!go();\n}"
    }'
}

# Prints a method that sends $1 messages to its own object, and gets each of them: n + 4 facts, of which n are futures. Each
# `get` has a pair, which is a chain.
own_gets_of() {
    LC_ALL=C awk -v gets="$1" 'BEGIN {
        print "interface O { Unit go(); }\nclass C implements O {\nUnit k() { }\nUnit go() {"
        for (n = 1; n <= gets; n++) print "Fut<Unit> f" n " = this!k(); f" n ".get;"
        print "}\n}\n{\nO o = new cog C();\no!go();\n}"
    }'
}

# Prints a local with $1 objects, a call of it, whose future may be that of each, and $2 times a `get` of this future and
# an assignment, after which the future may be unresolved again: 3 * n + 1 facts, and n * m pairs.
futures_of() {
    LC_ALL=C awk -v objects="$1" -v gets="$2" 'BEGIN {
        print "interface A { Unit k(); }\nclass C implements A { Unit k() { } }\n{\nA a;"
        for (n = 1; n <= objects; n++) print "a = new cog C();"
        print "Fut<Unit> f = a!k();"
        for (m = 1; m <= gets; m++) print "f.get; f = f;"
        print "}"
    }'
}

# Prints $2 classes in layers, with $1 objects of each. An object gets from the head of the list of those in the layer
# below, and those in the lowest layer, of one class more, wait for nothing. Main calls the uppermost layer. A get has a
# pair for each object of its class and each one below: d * w * w pairs. There are 3 * w * (d + 1) + 2 * d * w * w + 1
# facts: each object in main and in a list there, and called; and for each parameter and each future all of the layer below.
layers_of() {
    LC_ALL=C awk -v width="$1" -v layers="$2" 'BEGIN {
        print "interface N { Unit go(); }\nclass C0 implements N { Unit go() { } }"
        for (n = 1; n <= layers; n++)
            print "class C" n "(List<N> next) implements N { Unit go() { Fut<Unit> f = head(next)!go(); f.get; } }"
        print "{"
        for (n = 0; n <= layers; n++) {
            print "List<N> l" n " = Nil;"
            for (m = 1; m <= width; m++) {
                object = "o" n "_" m
                print "N " object " = new cog C" n "(" (n > 0 ? "l" n - 1 : "") "); l" n " = Cons(" object ", l" n ");"
            }
        }
        print "head(l" layers ")!go();\n}"
    }'
}

# Prints $1 objects in a list, each of which gets from the head of the list: 2 * n * n + 3 * n + 1 facts, those of
# list_of and a future of each object in each. Each waits for each, in n * n pairs. A pair of an object with itself is a
# chain, and so are the two pairs of each two objects, n * (n - 1) / 2 more.
all_of() {
    LC_ALL=C awk -v objects="$1" 'BEGIN {
        print "interface N { Unit go(List<N> l); }\nclass C implements N {"
        print "Unit go(List<N> l) { Fut<Unit> f = head(l)!go(l); f.get; }\n}\n{\nList<N> l = Nil;"
        for (n = 1; n <= objects; n++) print "N o" n " = new cog C();\nl = Cons(o" n ", l);"
        print "head(l)!go(l);\n}"
    }'
}
