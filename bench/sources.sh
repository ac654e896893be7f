# What prints the sources that bench/run measures: a function for each family, which takes the number of its parts, or of
# its bytes. The sources are the same at each call.

# Prints a main block of $1 bytes: print statements of small and large numbers in turn, then spaces.
prints_of() {
    LC_ALL=C awk -v bytes="$1" 'BEGIN {
        printf "{\n"
        left = bytes - length("{\n}\n")
        for (n = 1; ; n++) {
            number = n % 2 ? n : sprintf("170141183460469231731687303715%09d", n * 7919 % 884105728)
            line = "println(toString(" number "));\n"
            if (length(line) > left) break
            printf "%s", line
            left -= length(line)
        }
        while (left-- > 0) printf " "
        printf "}\n"
    }'
}

# Prints a main block of $1 declarations, at most 101,573. The names have one to three bytes, short ones first, and none
# is a keyword. The only white space is that after `Int`. So 100,000 declarations have fewer bytes than a source may
# have. After the first 26, each value is one of the first 26 locals, in turn.
locals_of() {
    LC_ALL=C awk -v locals="$1" '
        function declare(name) {
            if (n == locals || name ~ /^(in|if|def|let|new|cog|get|die|try)$/) return
            printf "Int %s=%s;", name, (n < 26 ? n : substr(bytes, n % 26 + 1, 1))
            n++
        }
        BEGIN {
            bytes = "abcdefghijklmnopqrstuvwxyz0123456789ABCDEFGHIJKLMNOPQRSTUVWXYZ"
            n = 0
            printf "{"
            for (i = 1; i <= 26; i++) declare(substr(bytes, i, 1))
            for (i = 1; i <= 26; i++)
                for (j = 1; j <= 62; j++) declare(substr(bytes, i, 1) substr(bytes, j, 1))
            for (i = 1; i <= 26 && n < locals; i++)
                for (j = 1; j <= 62; j++)
                    for (k = 1; k <= 62; k++) declare(substr(bytes, i, 1) substr(bytes, j, 1) substr(bytes, k, 1))
            printf "}\n"
        }'
}

# Prints a main block that prints a sum of $1 terms, with `+` and `-` in turn. Every third term is a product of two
# numbers, and the others are a number. All are small, so no result comes near the limit of 128 bits.
sum_of() {
    LC_ALL=C awk -v terms="$1" 'BEGIN {
        printf "{println(toString("
        for (n = 0; n < terms; n++) {
            if (n > 0) printf "%s", (n % 2 ? "+" : "-")
            printf "%d", n % 9 + 1
            if (n % 3 == 2) printf "*%d", n % 7 + 1
        }
        printf "));}\n"
    }'
}

# Prints lines up to $1 bytes, between a first line ($3) and a last one ($4), and then spaces and a line feed. The lines
# come from awk's function line(n), which $2 defines; n counts them from 0.
filled_of() {
    LC_ALL=C awk -v bytes="$1" -v first="$3" -v last="$4" "$2"'
        BEGIN {
            printf "%s", first
            left = bytes - length(first) - length(last) - 1
            for (n = 0; ; n++) {
                text = line(n)
                if (length(text) > left) break
                printf "%s", text
                left -= length(text)
            }
            while (left-- > 0) printf " "
            printf "%s\n", last
        }'
}

# Comments before an empty main block: one of each form in turn.
comments_of() {
    filled_of "$1" 'function line(n) {
        return n % 2 ? "// caf\303\251 " n ", to the end of the line: /* * \"\n" : "/* number " n " * of them: // \302\247 **/\n"
    }' '' '{}'
}

# Strings, after a punctuator that begins no program.
texts_of() {
    filled_of "$1" 'function line(n) {
        return "\"caf\303\251 " n ": \\n\\t\\r\\\"quoted\\\" and \\\\ \"\n"
    }' ';' ''
}

# Code without white space, after a punctuator that begins no program.
dense_of() {
    filled_of "$1" 'function line(n) {
        return "if(x<=y" n "&&this.f(1,z)!=" n "){x=foo(x,10)+y*(z-1);}else{a=b||!c;}"
    }' ';' ''
}

# Prints a main block that prints a sum of $1 numbers, each in 40 parentheses.
nested_of() {
    LC_ALL=C awk -v terms="$1" 'BEGIN {
        for (n = 0; n < 40; n++) { open = open "("; close_all = close_all ")" }
        printf "{println(toString("
        for (n = 0; n < terms; n++) printf "%s%s%d%s", (n > 0 ? "+" : ""), open, n % 9 + 1, close_all
        printf "));}\n"
    }'
}

# Prints $1 classes as the program generator writes them: each but the first has an object of the one before it. The
# main block makes the objects, and prints the answer of the last one.
programs_of() {
    LC_ALL=C awk -v classes="$1" 'BEGIN {
        print "interface Stage { Int go(Int x); }"
        for (n = 1; n <= classes; n++)
            print "class C" n "(Stage next) implements Stage { Int go(Int x) { Int r = x + 1; if (next != null) { Fut<Int> f = next!go(r); await f?; r = f.get; } return r; } }"
        print "{"
        print "  Stage s1 = new cog C1(null);"
        for (n = 2; n <= classes; n++) print "  Stage s" n " = new cog C" n "(s" n - 1 ");"
        print "  Fut<Int> f = s" classes "!go(0);\n  await f?;\n  Int x = f.get;\n  println(toString(x));\n}"
    }'
}

# The same for OCaml, with objects that call one another at once.
ocaml_programs_of() {
    LC_ALL=C awk -v classes="$1" 'BEGIN {
        print "class type stage = object method go : int -> int end\ntype future = Future of int"
        print "let send (s : stage) x = Future (s#go x)\nlet wait (Future _) = ()\nlet get (Future x) = x"
        for (n = 1; n <= classes; n++)
            print "class c" n " (next : stage option) : stage = object method go x = let r = x + 1 in" \
                " match next with None -> r | Some s -> let f = send s r in wait f; get f end"
        print "let () =\n  let s1 : stage = new c1 None in"
        for (n = 2; n <= classes; n++) print "  let s" n " : stage = new c" n " (Some s" n - 1 ") in"
        print "  let f = send s" classes " 0 in\n  wait f;\n  let x = get f in\n  print_endline (string_of_int x)"
    }'
}

# The same for Go.
go_programs_of() {
    LC_ALL=C awk -v classes="$1" 'BEGIN {
        print "package main\n\ntype Stage interface{ Go(x int) int }\n"
        for (n = 1; n <= classes; n++) {
            print "type C" n " struct{ next Stage }\n"
            print "func (c *C" n ") Go(x int) int {\n\tr := x + 1\n\tif c.next != nil {"
            print "\t\tf := send(c.next, r)\n\t\twait(f)\n\t\tr = get(f)\n\t}\n\treturn r\n}\n"
        }
        print "func main() {\n\tvar s1 Stage = &C1{nil}"
        for (n = 2; n <= classes; n++) print "\tvar s" n " Stage = &C" n "{s" n - 1 "}"
        print "\tf := send(s" classes ", 0)\n\twait(f)\n\tx := get(f)\n\tprintln(x)\n}"
    }'
}

# The same for Python.
python_programs_of() {
    LC_ALL=C awk -v classes="$1" 'BEGIN {
        for (n = 1; n <= classes; n++) {
            print "class C" n "(Stage):"
            print "    def go(self, x):\n        r = x + 1\n        if self.next is not None:"
            print "            f = self.next.send(r)\n            wait(f)\n            r = f.get()\n        return r"
        }
        print "s1 = C1(None)"
        for (n = 2; n <= classes; n++) print "s" n " = C" n "(s" n - 1 ")"
        print "f = s" classes ".send(0)\nwait(f)\nx = f.get()\nprint(x)"
    }'
}

# Prints a class with one method, which declares $1 locals. The first value uses the parameter, and each other one the
# local halfway back to the first. So most of the locals that are used are far from the newest ones.
method_of() {
    LC_ALL=C awk -v locals="$1" 'BEGIN {
        print "class C {\nInt go(Int x) {"
        for (n = 0; n < locals; n++) print "Int v" n "=" (n > 0 ? "v" int(n / 2) : "x") "+1;"
        print "return v" locals - 1 ";\n}\n}\n{\n}"
    }'
}

# Prints a main block that declares a local, and then has $1 blocks, which use it.
blocks_of() {
    LC_ALL=C awk -v blocks="$1" 'BEGIN {
        print "{\n  Int base = 1;"
        for (n = 1; n <= blocks; n++)
            print "  { Int a = base + " n "; Int b = a * 2; Int c = b - a; Int d = c * base; Int e = d - c + a; }"
        print "}"
    }'
}

# Prints a function whose value is a case of $1 branches.
cases_of() {
    LC_ALL=C awk -v branches="$1" 'BEGIN {
        print "data Tree = Leaf(Int) | Node(Int, Tree, Tree);\ndef Int weight(Tree tree) = case tree {"
        for (n = 1; n <= branches; n++)
            print "  Node(" n ", Leaf(left), Node(key, up, right)) => left * key + weight(up) - weight(right) * key;"
        print "};\n{\n}"
    }'
}

# Prints a class with $1 fields, and a method for each of them. The value of a field is the one halfway back to the
# first. A method assigns to its field twice, and uses the one halfway to the last.
fields_of() {
    LC_ALL=C awk -v fields="$1" 'BEGIN {
        print "class C {"
        for (n = 1; n <= fields; n++) print "Int f" n " = " (n > 1 ? "f" int(n / 2) : 1) ";"
        for (n = 1; n <= fields; n++) {
            other = int((n + fields) / 2)
            print "Int m" n "(Int x) { f" n " = this.f" other " + x; this.f" n " = f" other "; return x; }"
        }
        print "}\n{\n}"
    }'
}

# Prints $1 functions. Each but the first applies the one before it, and the one halfway back to the first.
functions_of() {
    LC_ALL=C awk -v functions="$1" 'BEGIN {
        print "def Int f1(Int x, List<Int> l) = if isEmpty(l) then x else head(l);"
        for (n = 2; n <= functions; n++)
            print "def Int f" n "(Int x, List<Int> l) = f" n - 1 "(x + 1, Cons(x, l)) - f" int(n / 2) "(x, Nil);"
        print "{\n}"
    }'
}

# Prints $1 data types, each with a type parameter. Each but the first has arguments of the type before it.
data_of() {
    LC_ALL=C awk -v types="$1" 'BEGIN {
        print "data D1<A> = Leaf1 | Node1(A, List<D1<A>>);"
        for (n = 2; n <= types; n++)
            print "data D" n "<A> = Leaf" n " | Node" n "(A, Maybe<D" n - 1 "<A>>, D" n "<A>);"
        print "{\n}"
    }'
}

# Prints $1 interfaces. Each but the first extends the one before it, and has a method with the one halfway back to the
# first.
interfaces_of() {
    LC_ALL=C awk -v interfaces="$1" 'BEGIN {
        print "interface I1 { Unit m1(Int x); }"
        for (n = 2; n <= interfaces; n++)
            print "interface I" n " extends I" n - 1 " { Fut<I" n "> m" n "(I" int(n / 2) " other, List<I" n - 1 "> all); }"
        print "{\n}"
    }'
}

# Prints a class of $1 methods, each with a parameter and a local.
methods_of() {
    LC_ALL=C awk -v methods="$1" 'BEGIN {
        print "class C {"
        for (n = 1; n <= methods; n++) print "Int m" n "(Int x) { Int y = x * x + " n "; return x - y; }"
        print "}\n{\n}"
    }'
}

# Prints $1 interfaces, and 100 more that extend all of these.
wide_of() {
    LC_ALL=C awk -v interfaces="$1" 'BEGIN {
        for (n = 1; n <= interfaces; n++) {
            print "interface I" n " { }"
            all = all (n > 1 ? ", " : "") "I" n
        }
        for (n = 1; n <= 100; n++) print "interface W" n " extends " all " { }"
        print "{\n}"
    }'
}

# Prints $1 classes, and an interface after them that they implement.
implementers_of() {
    LC_ALL=C awk -v classes="$1" 'BEGIN {
        for (n = 1; n <= classes; n++) print "class C" n " implements I { Unit m(Int x) { } }"
        print "interface I { Unit m(Int x); }\n{\n}"
    }'
}

# Prints $1 interfaces. Each extends the one before it, and the first one the last.
circle_of() {
    LC_ALL=C awk -v interfaces="$1" 'BEGIN {
        for (n = 1; n <= interfaces; n++)
            print "interface I" n " extends I" (n > 1 ? n - 1 : interfaces) "{}"
        print "{\n}"
    }'
}

# Prints $1 functions in groups of four: a sum over a list, arithmetic, a list made of another one, and a pair. Each of
# the last two applies others of its group.
ordinary_of() {
    LC_ALL=C awk -v functions="$1" 'BEGIN {
        for (n = 0; n < functions; n += 4) {
            print "def Int sum" n "(List<Int> l) = case l { Nil => 0; Cons(x, r) => x + sum" n "(r); };"
            print "def Int mix" n "(Int x, Int y) = if x < y then x * y - " n " else mix" n "(y, x - 1) * 2 % 7;"
            print "def List<Int> few" n "(List<Int> l) ="
            print "case l { Cons(x, r) => if x > 9 then Cons(mix" n "(x, 3), few" n "(r)) else few" n "(r);"
            print "_ => Nil; };\ndef Pair<Int, Int> two" n "(List<Int> l) ="
            print "let (Int y) = sum" n "(few" n "(l)) in Pair(y, y - length(l));"
        }
        print "{\n}"
    }'
}

# Prints a function that is a sum of $1 operands, one on a line. Every third one is a product.
operands_of() {
    LC_ALL=C awk -v operands="$1" 'BEGIN {
        print "def Int f(Int x) ="
        for (n = 0; n < operands; n++) print (n % 2 ? "+ " : "- ") (n % 3 < 2 ? n % 10 : "x * " n % 10)
        print ";\n{\n}"
    }'
}

# Prints functions that add the lengths of $1 lists, one on a line, at most ten in a function. A list has 40 numbers.
lists_of() {
    LC_ALL=C awk -v lists="$1" 'BEGIN {
        for (n = 0; n < 40; n++) { open = open "Cons(" (n % 2 ? "x" : n % 10) ","; close_all = close_all ")" }
        for (n = 0; n < lists; n++) {
            if (n % 10 == 0) print (n > 0 ? ";\n" : "") "def Int f" n "(Int x) ="
            print (n % 10 ? "+ " : "- ") "length(" open "Nil)" close_all
        }
        print ";\n{\n}"
    }'
}

# Prints data of $1 constructors, one on a line, and one more. Then ten functions that are a case over all of them.
constructors_of() {
    LC_ALL=C awk -v constructors="$1" 'BEGIN {
        print "data Part = None0"
        for (n = 1; n <= constructors; n++) print "| P" n "(Int, Maybe<Int>, List<Part>)"
        for (f = 0; f < 10; f++) {
            print ";\ndef Int f" f "(Part part) = case part { None0 => 0;"
            for (n = 1; n <= constructors; n++)
                print "  P" n "(wide, Just(deep), Cons(part1, _)) => wide * deep + f" f "(part1) - " n ";"
            printf "}"
        }
        print ";\n{\n}"
    }'
}

# Prints a function of $1 parameters, one on a line, and 100 functions that apply it.
parameters_of() {
    LC_ALL=C awk -v parameters="$1" 'BEGIN {
        split("Int,A,Maybe<B>", types, ","); split("x,\"s\",Just(x),9,\"\",Nothing", values, ",")
        print "def Int wide<A, B>("
        for (n = 0; n < parameters; n++) {
            print types[n % 3 + 1] " p" n (n < parameters - 1 ? "," : ") = p0;")
            given = given (n > 0 ? "," : "") values[n % 6 + 1]
        }
        for (n = 0; n < 100; n++) print "def Int f" n "(Int x) = wide(" given ");"
        print "{\n}"
    }'
}

# Prints $1 classes, each of which implements an interface of its own. All methods have one name.
own_interfaces_of() {
    LC_ALL=C awk -v classes="$1" 'BEGIN {
        for (n = 1; n <= classes; n++) {
            print "interface I" n " { Int m(I" n " x); }"
            print "class C" n " implements I" n " { Int m(I" n " x) { return " n % 10 "; } }"
        }
        print "{\n}"
    }'
}

# Prints $1 interfaces in a chain, each with a method of its own, and one class that has all.
chain_of() {
    LC_ALL=C awk -v interfaces="$1" 'BEGIN {
        print "interface I1 { Int m1(); }"
        for (n = 2; n <= interfaces; n++) print "interface I" n " extends I" n - 1 " { Int m" n "(); }"
        print "class C implements I" interfaces " {"
        for (n = 1; n <= interfaces; n++) print "Int m" n "() { return " n "; }"
        print "}\n{\n}"
    }'
}

# Prints $1 interfaces that each declare a method of one name. Every second one extends the one before it, which has the
# same types; otherwise each has types of its own.
same_name_of() {
    LC_ALL=C awk -v interfaces="$1" 'BEGIN {
        for (n = 1; n <= interfaces; n += 2) {
            print "interface I" n " { Fut<I" n "> m(Int x, I" n " other); }"
            print "interface I" n + 1 " extends I" n " { Fut<I" n "> m(Int y, I" n " another); }"
        }
        print "{\n}"
    }'
}

# Prints a class of $1 methods. Each calls the next one and the one halfway to the last, in both ways.
own_calls_of() {
    LC_ALL=C awk -v methods="$1" 'BEGIN {
        print "class C {"
        for (n = 1; n <= methods; n++) {
            next_one = n % methods + 1
            halfway = int((n + methods) / 2)
            printf "Int m%d(Int x, Fut<Int> f) { Int y = this.m%d(x, f);", n, next_one
            print " f = this!m" halfway "(x, f); return x - y; }"
        }
        print "}\n{\n}"
    }'
}

# Prints a class with one method of $1 statements, each of which declares a local: in turn a number, a comparison of it,
# and a string.
statements_of() {
    LC_ALL=C awk -v statements="$1" 'BEGIN {
        split("Int,Bool,String", types, ",")
        print "class C {\nUnit m(Int x, String s) {"
        for (n = 0; n < statements; n++) {
            value = n % 3 == 0 ? "x+1" : n % 3 == 1 ? "v" n - 1 "<x" : "s+\"a\""
            print types[n % 3 + 1] " v" n "=" value ";"
        }
        print "}\n}\n{\n}"
    }'
}

# Prints $1 calls on an interface, which inherits from a fifth as many others.
inherited_of() {
    LC_ALL=C awk -v calls="$1" 'BEGIN {
        interfaces = calls / 5
        for (n = 1; n <= interfaces; n++) {
            print "interface I" n " { Int m" n "(Int x); }"
            all = all (n > 1 ? ", " : "") "I" n
        }
        print "interface All extends " all " { }\n{\nAll a;"
        for (n = 1; n <= calls; n++) print "a!m" n * 7 % interfaces + 1 "(" n % 10 ");"
        print "}"
    }'
}

# Prints a main block of $1 times `get` of one local.
gets_of() {
    LC_ALL=C awk -v gets="$1" 'BEGIN {
        print "{\nFut<Int> f = null;"
        for (n = 0; n < gets; n++) print "f.get;"
        print "}"
    }'
}

# Prints a main block of $1 locals of type Fut, and as many branches: each gets one of them and assigns another one.
branches_of() {
    LC_ALL=C awk -v locals="$1" 'BEGIN {
        print "{\nBool b=True;"
        for (n = 0; n < locals; n++) print "Fut<Int> f" n "=null;"
        for (n = 0; n < locals; n++) print "if(b)f" n ".get;else f" n * 7 % locals "=null;"
        print "}"
    }'
}

# Prints a main block of 96 nested loops, as many as the nesting limit allows around a block of assignments. In the
# innermost one are $1 statements: of 100 locals each is assigned or got.
loops_of() {
    LC_ALL=C awk -v statements="$1" 'BEGIN {
        print "{\nBool b=True;"
        for (n = 0; n < 100; n++) print "Fut<Int> f" n "=null;"
        for (n = 0; n < 96; n++) printf "while(b)"
        print "{"
        for (n = 0; n < statements; n++) print (n % 3 ? "f" n % 100 ".get;" : "f" n * 7 % 100 "=f" n % 100 ";")
        print "}\n}"
    }'
}

# Prints a class of $1 methods. Each calls on `this` the one that comes this many ($2) places after it, if there is one;
# in a ring ($3) the first one follows the last.
calls_of() {
    LC_ALL=C awk -v methods="$1" -v step="$2" -v ring="$3" 'BEGIN {
        print "class C {"
        for (n = 0; n < methods; n++) {
            called = ring ? (n + step) % methods : n + step
            print "Int m" n "(){" (called >= 0 && called < methods ? "this.m" called "();" : "") "return 1;}"
        }
        print "}\n{\n}"
    }'
}
forward_of() {
    calls_of "$1" 1 0
}
backward_of() {
    calls_of "$1" -1 0
}
ring_of() {
    calls_of "$1" 1 1
}

# Prints a main block of $1 objects in a list, and a message with this list to its head. The list is made by statements
# of at most 40 objects each.
listed_of() {
    LC_ALL=C awk -v objects="$1" 'BEGIN {
        print "interface I { Unit m(List<I> l); }\nclass C implements I { Unit m(List<I> l) { } }\n{"
        for (n = 0; n < objects; n++) print "I o" n " = new cog C();"
        print "List<I> l = Nil;"
        for (n = 0; n < objects; n += 40) {
            printf "l = "
            for (m = n; m < n + 40 && m < objects; m++) printf "Cons(o" m ", "
            printf "l"
            for (m = n; m < n + 40 && m < objects; m++) printf ")"
            print ";"
        }
        print "head(l)!m(l);\n}"
    }'
}

# Prints a main block of $1 locals, each of which is assigned from the next one, and the last one from `new`.
assigned_of() {
    LC_ALL=C awk -v locals="$1" 'BEGIN {
        print "interface I { }\nclass C implements I { }\n{"
        for (n = 1; n <= locals; n++) print "I v" n ";"
        for (n = 1; n < locals; n++) print "v" n " = v" n + 1 ";"
        print "v" locals " = new C();\n}"
    }'
}

# Prints $1 objects, each in a cog of its own, in rings of $2: a method of each calls the same method of the next one, and
# waits for it by the statement $3. The main block calls one of each ring.
rings_of() {
    LC_ALL=C awk -v objects="$1" -v size="$2" -v waits="$3" 'BEGIN {
        print "interface I { Unit set(I n); Unit go(); }\nclass C implements I {\nI next;"
        print "Unit set(I n) { next = n; }\nUnit go() { Fut<Unit> f = next!go(); " waits " }\n}\n{"
        for (n = 1; n <= objects; n++) print "I o" n " = new cog C();"
        for (n = 1; n <= objects; n++) print "o" n "!set(o" (n % size ? n + 1 : n - size + 1) ");"
        for (n = 1; n <= objects; n += size) print "o" n "!go();"
        print "}"
    }'
}
await_ring_of() {
    rings_of "$1" "$1" "await f?;"
}
get_ring_of() {
    rings_of "$1" "$1" "f.get;"
}
twos_of() {
    rings_of $((2 * $1)) 2 "f.get;"
}

# Prints a ring of $1 objects that get from one another, each of a class of its own. The classes are spread over most of
# a megabyte, since 14 lines of comments come after each.
long_ring_of() {
    LC_ALL=C awk -v objects="$1" 'BEGIN {
        print "interface I { Unit set(I n); Unit go(); }"
        for (n = 1; n <= objects; n++) {
            print "class C" n " implements I { I next; Unit set(I n) { next = n; }"
            print "  Unit go() { Fut<Unit> f = next!go(); f.get; }\n}"
            for (m = 0; m < 14; m++) print "// the next class comes after these lines, of which none is it"
        }
        print "{"
        for (n = 1; n <= objects; n++) print "I o" n " = new cog C" n "();"
        for (n = 1; n <= objects; n++) print "o" n "!set(o" n % objects + 1 ");"
        print "o1!go();\n}"
    }'
}

# Prints a main block of $1 calls of an object in its own cog, each with a `get` of what it gives.
alone_of() {
    LC_ALL=C awk -v calls="$1" 'BEGIN {
        print "interface I { Unit m(); }\nclass C implements I { Unit m() { } }\n{\nI o = new C();"
        for (n = 1; n <= calls; n++) print "Fut<Unit> f" n " = o!m(); f" n ".get;"
        print "}"
    }'
}

# Prints a main block of $1 assignments, each of an expression that reads one local 10,000 times.
reads_of() {
    LC_ALL=C awk -v assignments="$1" 'BEGIN {
        print "{\nInt x=0;"
        for (n = 0; n < assignments; n++) {
            printf "x=x"
            for (m = 1; m < 10000; m++) printf "-x"
            print ";"
        }
        print "}"
    }'
}

# Prints a main block of $1 statements, in hundreds: $2 nested `if`, and assignments in the innermost one. Before them
# are a `skip` and the declaration of `x`, and after them is an assignment to the local $3.
control_of() {
    LC_ALL=C awk -v statements="$1" -v depth="$2" -v last="$3" 'BEGIN {
        for (n = 0; n < depth; n++) { open = open "if(True){"; close_all = close_all "}" }
        for (n = depth; n < 100; n++) assignments = assignments "x=1;"
        print "{skip;Int x=0;"
        for (n = 0; n < statements; n += 100) print open assignments close_all
        print last "=1;}"
    }'
}

# Prints a program that applies functions: `fib` of 27; `length` or `append` again and again, for a list of 600 numbers;
# or `tail`, which takes 100 numbers off a list of 100 or of 4,990, again and again. The second argument is the number of
# statements that do so.
evaluation_of() {
    awk -v name="$1" -v times="$2" 'BEGIN {
        print "def Int fib(Int n) = if n < 2 then n else fib(n - 1) + fib(n - 2);"
        print "def List<Int> made(Int n, List<Int> l) = if n == 0 then l else made(n - 1, Cons(n, l));"
        print "def Int lengths(Int n, List<Int> l, Int m) = if n == 0 then m else lengths(n - 1, l, m + length(l));"
        print "def Int all_lengths(Int n, List<Int> l) = if n == 0 then 0 else lengths(30, l, 0) + all_lengths(n - 1, l);"
        print "def List<Int> appended(Int n, List<Int> l) = if n == 0 then l else appended(n - 1, append(l, Nil));"
        print "def Int all_appended(Int n, List<Int> l) ="
        print "  if n == 0 then 0 else head(appended(30, l)) + all_appended(n - 1, l);"
        print "def List<Int> taken(Int n, List<Int> l) = if n == 0 then l else taken(n - 1, tail(l));"
        print "def Int all_taken(Int n, List<Int> l) = if n == 0 then 0 else head(taken(99, l)) + all_taken(n - 1, l);"
        print "{\n  List<Int> l = made(600, Nil);"
        print "  List<Int> short = made(100, Nil);\n  List<Int> long = Nil;"
        for (n = 1; n <= 5; n++) print "  long = made(998, long);"
        call["tail_of_100"] = "all_taken(500, short)"; call["tail_of_4990"] = "all_taken(500, long)"
        call["fib"] = "fib(27)"; call["length"] = "all_lengths(20, l)"; call["append"] = "all_appended(20, l)"
        for (n = 1; n <= times; n++) print "  " call[name] ";"
        print "}"
    }'
}

# Prints the same for Python, where a list is nothing, or a pair of a number and a list.
python_evaluation_of() {
    awk -v name="$1" -v times="$2" 'BEGIN {
        print "import sys\nsys.setrecursionlimit(10000)"
        print "def fib(n): return n if n < 2 else fib(n - 1) + fib(n - 2)"
        print "def made(n, l): return l if n == 0 else made(n - 1, (n, l))"
        print "def length(l): return 0 if l is None else 1 + length(l[1])"
        print "def append(l, m): return m if l is None else (l[0], append(l[1], m))"
        print "def lengths(n, l, m): return m if n == 0 else lengths(n - 1, l, m + length(l))"
        print "def all_lengths(n, l): return 0 if n == 0 else lengths(30, l, 0) + all_lengths(n - 1, l)"
        print "def appended(n, l): return l if n == 0 else appended(n - 1, append(l, None))"
        print "def all_appended(n, l): return 0 if n == 0 else appended(30, l)[0] + all_appended(n - 1, l)"
        print "l = made(600, None)"
        call["fib"] = "fib(27)"; call["length"] = "all_lengths(20, l)"; call["append"] = "all_appended(20, l)"
        for (n = 1; n <= times; n++) print call[name]
    }'
}
