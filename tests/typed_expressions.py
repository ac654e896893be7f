"""Makes expressions and right sides of given types at random, with what can be planted in them, for typed_programs.py."""
from planting import Site, applied, call, planting

# A type is a tuple: its name, and its arguments.
INT, STRING, BOOL, UNIT = ("Int",), ("String",), ("Bool",), ("Unit",)

# Values of some types, which have no join with one another and are patterns too; constructors of types with arguments.
VALUES = {"Int": ["7"], "String": ['"w"'], "Bool": ["True"], "Unit": ["Unit"], "List": ["Nil"], "Maybe": ["Nothing"]}
BUILT = {"List": "Cons", "Maybe": "Just", "Pair": "Pair"}


class Scope:
    """What an expression or a statement sees. A slot is a parameter or a local, and a variable of a `let` or a pattern
    is bound. The fields are those of the class of a method, which has a result."""

    def __init__(self, kind, slots=(), fields=(), own_class=None, result=None):
        self.kind, self.slots, self.bound, self.fields = kind, dict(slots), {}, dict(fields)
        self.own_class, self.result = own_class, result

    def inner(self, bound=()):
        """A copy, for a block or for a part of an expression, with variables of a `let` or a pattern."""
        other = Scope(self.kind, self.slots, self.fields, self.own_class, self.result)
        other.bound = {**self.bound, **dict(bound)}
        return other

    def variables(self):
        """The tokens of each variable, and its type. A field that is hidden is written with `this`."""
        both = {**self.slots, **self.bound}
        named = [([name], type_) for name, type_ in both.items()]
        if self.kind == "method":
            named += [(["this", ".", name], type_) for name, type_ in self.fields.items()]
        return named + [([name], type_) for name, type_ in self.fields.items() if name not in both]


def written(type_):
    """The tokens of a type."""
    return applied(type_[0], [written(argument) for argument in type_[1:]], "<>")


def has_future(type_):
    """Whether a future occurs in a type."""
    return type_[0] == "Fut" or any(has_future(argument) for argument in type_[1:])


def parens(items):
    return ["(", items, ")"]


class Expressions:
    """Makes the expressions and the right sides of one program: of any one, or of one that runs, which keeps to the
    profile of the language."""

    def __init__(self, rng, runs):
        self.rng, self.runs, self.number = rng, runs, 0
        # data: its parameters, and constructors with the types of their arguments, where ("A",) is the parameter
        self.data, self.functions, self.interfaces, self.classes = {}, {}, {}, {}

    def fresh(self, start):
        """A name that nothing has."""
        self.number += 1
        return f"{start}{self.number}"

    # ---- types ----

    def plain_type(self):
        return self.rng.choice([INT, INT, STRING, BOOL])

    def type_of(self, depth=2, nullable=True):
        """A type of a variable."""
        ways = ["plain", "plain", "List", "Maybe", "Pair", "data"] + ["Fut", "interface", "interface"] * nullable
        way = self.rng.choice(ways) if depth else "plain"
        if way == "plain":
            return self.plain_type()
        if way == "interface":
            return (self.rng.choice(sorted(self.interfaces)),) if self.interfaces else INT
        if way == "data":
            name = self.rng.choice(sorted(self.data)) if self.data else None
            return (name, *(self.type_of(depth - 1, nullable) for _ in range(self.data[name][0]))) if name else BOOL
        return (way, *(self.type_of(depth - 1, nullable) for _ in range(2 if way == "Pair" else 1)))

    def kept_type(self):
        """A type of a field or of a parameter of a class. In a program that runs there is no future in it."""
        type_ = self.type_of()
        while self.runs and has_future(type_):
            type_ = self.type_of()
        return type_

    def has_null(self, type_):
        return type_[0] == "Fut" or type_[0] in self.interfaces

    def above(self, name):
        """The interfaces that an interface extends, in any number of steps."""
        found = set()
        for other in self.interfaces[name][0]:
            found |= {other} | self.above(other)
        return found

    def methods_of(self, name):
        """The methods of an interface, inherited ones too: their parameters and their results."""
        methods = {}
        for other in sorted({name} | self.above(name)):
            methods.update(self.interfaces[other][1])
        return methods

    def implemented(self, class_):
        """The interfaces that a class implements, directly or through others."""
        return {other for name in self.classes[class_][1] for other in {name} | self.above(name)} if class_ else set()

    # ---- expressions of a type ----

    def is_there(self, scope, type_):
        """Whether there is an expression that has this very type."""
        if any(type_ == other for _, other in scope.variables()) or self.is_own_future(scope, type_):
            return True
        return not self.has_null(type_) and all(self.is_there(scope, argument) for argument in type_[1:])

    def is_own_future(self, scope, type_):
        """Whether `destiny` has this type, where it may be written."""
        return type_ == ("Fut", scope.result) and scope.kind in ("method", "main") and not self.runs

    def exact(self, scope, type_, depth=2):
        """An expression that has this very type, where there is one."""
        ways = [self.leaf] if not depth else [self.leaf, self.chosen, self.let, self.case, self.applied_to, self.taken]
        of_type = {"Int": [self.sum], "String": [self.joined], "Bool": [self.test, self.test]}
        ways += of_type.get(type_[0], []) * (depth > 0)
        return self.rng.choice(ways)(scope, type_, depth - 1)

    def leaf(self, scope, type_, depth):
        """A variable, or a value that has no parts of a type that is hard to make."""
        found = [items for items, other in scope.variables() if other == type_]
        if self.is_own_future(scope, type_):
            found.append(["destiny"])
        has_parts = not self.has_null(type_) and all(self.is_there(scope, argument) for argument in type_[1:])
        if found and (not has_parts or self.rng.random() < 0.6):
            return self.rng.choice(found)
        literals = {"Int": ["7", "0", "-3", "12"], "String": ['"a"', '"b c"'], "Bool": ["True", "False"],
                    "Unit": ["Unit"]}
        if type_[0] in literals:
            return [self.rng.choice(literals[type_[0]])]
        parts = [self.exact(scope, argument, 0) for argument in type_[1:]]
        if type_[0] in self.data:
            return self.built(scope, type_, 0)
        return call(BUILT[type_[0]], parts + [["Nil"]] * (type_[0] == "List"))

    def built(self, scope, type_, depth):
        """Data of a program by its first constructor, whose arguments have the types that are asked for."""
        constructor, wanted = next(iter(self.data[type_[0]][1].items()))
        types = [type_[1] if other == ("A",) else other for other in wanted]
        values = [self.exact(scope, other, depth) if other in type_[1:] else self.fitting(scope, other, depth)
                  for other in types]
        fixed = [index for index, other in enumerate(wanted) if other != ("A",)]
        return self.application(constructor, values, types, fixed, "constructor")

    def application(self, name, values, types, fixed, kind):
        """A function or a constructor with arguments. Those with the fixed indices have types without a parameter."""
        def wrong(mark):
            index = self.rng.choice(fixed)
            return [mark, *call(name, values[:index] + [self.wrong(types[index])] + values[index + 1:])]
        tokens = call(name, values) if values or kind == "function" else [name]
        return Site(tokens, {f"T1 argument of a {kind}": bool(fixed) and wrong})

    def chosen(self, scope, type_, depth):
        condition, first = self.exact(scope, BOOL, depth), self.exact(scope, type_, depth)
        second, bad = self.fitting(scope, type_, depth), self.wrong(type_)
        whole = ["if", condition, "then", first, "else", second]
        return parens(Site(whole, {
            "T1 condition of an if": lambda mark: [mark, "if", self.wrong(BOOL), *whole[2:]],
            "T1 branches without join": lambda mark: [mark, *whole[:-1], bad]}))

    def let(self, scope, type_, depth):
        name, other = self.fresh("l"), self.type_of(1)
        value, body = self.fitting(scope, other, depth), self.exact(scope.inner({name: other}), type_, depth)
        whole = ["let", "(", written(other), name, ")", "=", value, "in", body]
        return parens(Site(whole, {
            "T1 value of a let": lambda mark: [mark, *whole[:6], self.wrong(other), "in", body]}))

    def case(self, scope, type_, depth):
        """A case over something whose type is there, by one pattern with variables and one without."""
        subject = self.type_of(1, nullable=False)
        names = [self.fresh("p"), self.fresh("q")]
        parts = {"List": [subject[1:2], [subject]], "Maybe": [subject[1:2]], "Pair": [subject[1:2], subject[2:3]]}
        types = [part[0] for part in parts.get(subject[0], [[subject]])]
        constructor = BUILT.get(subject[0])
        pattern = call(constructor, [[name] for name in names[:len(types)]]) if constructor else [names[0]]
        value, first = self.exact(scope, subject, depth), self.exact(scope.inner(zip(names, types)), type_, depth)
        head = ["case", value, "{", pattern, "=>", first, ";"]
        last, bad = self.fitting(scope, type_, depth), self.wrong(type_)
        ended = Site(["_", "=>", last, ";"], {
            "T1 pattern": lambda mark: [mark, self.wrong_pattern(subject), "=>", last, ";"]})
        return parens(Site([*head, ended, "}"], {
            "T1 branches of a case without join": lambda mark: [mark, *head, ended, "_", "=>", bad, ";", "}"]}))

    def applied_to(self, scope, type_, depth):
        """A function of the program with this result, or one of the prelude that takes something apart."""
        own = [name for name, (_, result) in sorted(self.functions.items()) if result == type_]
        if own and self.rng.random() < 0.7:
            name = self.rng.choice(own)
            types = self.functions[name][0]
            return self.application(name, [self.fitting(scope, other, depth) for other in types], types,
                                    list(range(len(types))), "function")
        if type_[0] == "List" and self.rng.random() < 0.5:
            return call(*self.rng.choice([("tail", [self.exact(scope, type_, depth)]), ("append", [
                self.exact(scope, type_, depth), self.fitting(scope, type_, depth)])]))
        return self.taken(scope, type_, depth)

    def taken(self, scope, type_, depth):
        """What a function of the prelude takes out of a list, a pair or an optional value."""
        other = self.plain_type()
        number = self.exact(scope, INT, 0)
        way, of, more = self.rng.choice([
            ("head", ("List", type_), []), ("nth", ("List", type_), [number]), ("fromJust", ("Maybe", type_), []),
            ("fst", ("Pair", type_, other), []), ("snd", ("Pair", other, type_), [])])
        value = self.exact(scope, of, depth) if depth > 0 else self.leaf(scope, of, 0)
        return Site(call(way, [value, *more]), {
            "T1 argument of a prelude function": lambda mark: [mark, *call(way, [["7"], *more])]})

    def operators(self, operators, operands, type_, least=0):
        """Operands with operators between them. One from this index on can be of another type."""
        def whole(parts):
            return [parts[0], *(item for pair in zip(operators, parts[1:]) for item in pair)]

        def wrong(mark):
            index = self.rng.randrange(least, len(operands))
            return [mark, *whole([*operands[:index], self.wrong(type_), *operands[index + 1:]])]
        return parens(Site(whole(operands), {f"T1 operand of {operators[0]}": wrong}))

    def sum(self, scope, type_, depth):
        operators = self.rng.choice([["+"], ["-"], ["*"], ["/"], ["%"], ["+", "-"], ["-", "-"], ["*", "%"]])
        if self.rng.random() < 0.2:
            return call("length", [self.exact(scope, ("List", self.plain_type()), depth)])
        return self.operators(operators, [self.exact(scope, INT, depth) for _ in range(len(operators) + 1)], INT)

    def joined(self, scope, type_, depth):
        if self.rng.random() < 0.4:
            return call("toString", [self.fitting(scope, self.type_of(1), depth)])
        return self.operators(["+"], [self.exact(scope, STRING, depth) for _ in range(2)], STRING)

    def test(self, scope, type_, depth):
        """A comparison, or what is made of several."""
        way = self.rng.choice(["<", "<=", ">", ">=", "==", "!=", "&&", "||", "~", "isEmpty"])
        if way == "isEmpty":
            return call("isEmpty", [self.fitting(scope, ("List", self.plain_type()), depth)])
        if way == "~":
            return parens(["~", parens(self.exact(scope, BOOL, depth))])
        if way in ("==", "!="):
            others = [found for _, found in scope.variables() if self.is_there(scope, found)]
            other = self.rng.choice(others or [INT])
            return self.operators([way], [self.exact(scope, other, depth), self.fitting(scope, other, 0)], other, 1)
        other = BOOL if way in ("&&", "||") else INT
        return self.operators([way], [self.exact(scope, other, depth) for _ in range(2)], other)

    def fitting(self, scope, type_, depth=2):
        """An expression whose type fits this one."""
        ways = [["head", "(", "Nil", ")"]] * (self.rng.random() < 0.05) + [["null"]] * self.has_null(type_)
        ways += {"List": [["Nil"]], "Maybe": [["Nothing"]]}.get(type_[0], [])
        if type_[0] in self.interfaces:
            ways += [["this"]] * (scope.kind == "method" and type_[0] in self.implemented(scope.own_class))
            ways += [items for items, other in scope.variables()
                     if other[0] in self.interfaces and type_[0] in self.above(other[0])]
        if self.is_there(scope, type_) and (not ways or self.rng.random() < 0.7):
            return self.exact(scope, type_, depth)
        return self.rng.choice(ways) if ways else ["head", "(", "Nil", ")"]

    def wrong(self, type_):
        """An expression whose type has no join with this one."""
        others = [tokens for name, tokens in VALUES.items() if name != type_[0]]
        if not self.has_null(type_):
            others.append(["null"])
        if type_[0] in ("List", "Maybe") and self.rng.random() < 0.5:
            return call(BUILT[type_[0]], [self.wrong(type_[1])] + [["Nil"]] * (type_[0] == "List"))
        return self.rng.choice(others)

    def wrong_pattern(self, type_):
        """A pattern without variables that does not fit a type."""
        return self.rng.choice([tokens for name, tokens in VALUES.items() if name != type_[0]])

    def asked(self, scope, type_, what, depth=2):
        """An expression where a type is asked for."""
        return Site(self.fitting(scope, type_, depth), {
            f"T1 {what}": lambda mark: [mark, self.wrong(type_)],
            "N2 variable": planting("§ nosuch"),
            "N3 function": planting("§ head ( )")})

    # ---- right sides: a type, and the tokens ----

    def receivers(self, scope):
        """The variables that are objects, with their interfaces."""
        return [(items, other[0]) for items, other in scope.variables() if other[0] in self.interfaces]

    def call_of(self, scope, operator):
        """A call on an object: the type that it gives, and its tokens; None where there is no object with a method."""
        able = [(items, name, sorted(self.methods_of(name).items())) for items, name in self.receivers(scope)]
        able = [(items, name, methods) for items, name, methods in able if methods]
        if not able:
            return None
        receiver, name, methods = self.rng.choice(able)
        return self.called(scope, receiver, operator, methods, "an interface")

    def own_call_of(self, scope, operator):
        """The same on `this`."""
        methods = sorted(self.classes[scope.own_class][2].items()) if scope.own_class else []
        receiver = self.rng.choice([["this"], ["this"], ["(", "this", ")"]])
        return self.called(scope, receiver, operator, methods, "a class") if methods else None

    def called(self, scope, receiver, operator, methods, of):
        """A call of one of these methods."""
        method, (types, result) = self.rng.choice(methods)
        values = [self.fitting(scope, other, 1) for other in types]
        head, more = [receiver, operator], [*values, ["7"]]

        def wrong(mark):
            index = self.rng.randrange(len(types))
            bad = values[:index] + [self.wrong(types[index])] + values[index + 1:]
            return [mark, *head, *call(method, bad)]
        whole = Site([*head, *call(method, values)], {
            f"T1 argument of a method of {of}": bool(types) and wrong,
            f"T2 unknown method of {of}": lambda mark: [mark, *head, *call("nosuch", values)],
            f"T2 parameters of a method of {of}": lambda mark: [mark, *head, *call(method, more)],
            f"T2 before an argument, {of}":
                lambda mark: [mark, *head, *call("nosuch", [["1", "+", '"w"'], *values])]})
        return (("Fut", result) if operator == "!" else result), whole

    def new_of(self, scope):
        """A new object: an interface that it fits, and its tokens."""
        able = [name for name in sorted(self.classes) if self.implemented(name)]
        if not able:
            return None
        name = self.rng.choice(able)
        types = self.classes[name][0]
        words, values = self.rng.choice([["new"], ["new", "cog"]]), [self.fitting(scope, other, 1) for other in types]

        def wrong(mark):
            index = self.rng.randrange(len(types))
            return [mark, *words, *call(name, values[:index] + [self.wrong(types[index])] + values[index + 1:])]
        whole = Site([*words, *call(name, values)], {
            "T1 argument of new": bool(types) and wrong,
            "N3 class": lambda mark: [*words, mark, *call(name, [*values, ["7"]])]})
        return (self.rng.choice(sorted(self.implemented(name))),), whole

    def get_of(self, scope):
        """The value of a future: its type, and its tokens."""
        able = [(name, other[1]) for name, other in scope.slots.items() if other[0] == "Fut"]
        if not able:
            return None
        name, value = self.rng.choice(able)
        return value, [name, ".", "get"]

    def right_side(self, scope):
        """Some right side that is no expression: its type, and its tokens; None where there is none of that kind."""
        ways = [lambda: self.call_of(scope, "!"), lambda: self.new_of(scope)]
        ways += [] if self.runs else [lambda: self.call_of(scope, ".")]
        ways.append(lambda: self.get_of(scope))
        if scope.kind == "method":
            ways += [lambda: self.own_call_of(scope, "!"), lambda: self.own_call_of(scope, ".")]
        return self.rng.choice(ways)()
