"""Makes programs at random whose tasks pass objects and futures on, for facts_by_rounds. They have no offence.

A type is a tuple: its name and the types in it.
"""
INT, UNIT = ("Int",), ("Unit",)


def written(type_):
    """A type as it is written."""
    name, *others = type_
    return f"{name}<{', '.join(map(written, others))}>" if others else name


def has_future(type_):
    return type_[0] == "Fut" or any(map(has_future, type_[1:]))


class Scope:
    """What can be read: variables with their types, of which the locals can be got from, and `this` in a class."""

    def __init__(self, kept, class_=None):
        self.kept, self.locals, self.class_ = dict(kept), {}, class_

    def variables(self):
        return {**self.kept, **self.locals}

    def inner(self):
        """The scope of a block: what is declared in it is not known after it."""
        other = Scope(self.kept, self.class_)
        other.locals = dict(self.locals)
        return other


class Maker:
    """Makes one program."""

    def __init__(self, rng):
        self.rng, self.count, self.results = rng, 0, [INT]
        self.interfaces = {}  # to the interfaces above, itself among them, and to its methods, those above too
        self.classes = {}  # to its parameters, its further fields, its interfaces, all above too, and its methods

    def fresh(self, letter):
        self.count += 1
        return f"{letter}{self.count}"

    def often(self, chance):
        return self.rng.random() < chance

    # ---- types ----

    def type_of(self, depth=1, futures=True):
        """A type that holds objects or futures, or `Int`."""
        ways = ["object"] * 8 + ["number"] + ["list", "pair"] * bool(depth) + ["future"] * (4 * futures)
        way = self.rng.choice(ways)
        if way == "object":
            return (self.rng.choice(sorted(self.interfaces)),)
        if way == "number":
            return INT
        if way == "future":
            return ("Fut", self.type_of(depth, False) if self.often(0.9) else self.type_of(0))
        parts = [self.type_of(0, futures) for _ in range(2 if way == "pair" else 1)]
        return ({"list": "List", "pair": "Pair"}[way], *parts)

    def is_below(self, type_, other):
        return type_ == other or type_[0] in self.interfaces and other[0] in self.interfaces[type_[0]][0]

    # ---- expressions ----

    def value(self, scope, type_, depth=2):
        """An expression that fits a type."""
        found = [name for name, other in scope.variables().items() if self.is_below(other, type_)]
        ways = ["variable"] * (8 * bool(found)) + ["built"] * 2 + ["taken", "taken", "chosen"] * bool(depth)
        way = self.rng.choice(ways)
        if way == "variable":
            return self.rng.choice(found)
        if way == "taken":
            return self.taken(scope, type_) or self.built(scope, type_, depth)
        if way == "chosen":
            one, other = self.exact(scope, type_, depth - 1), self.exact(scope, type_, depth - 1)
            return f"(if {self.condition(scope)} then {one} else {other})"
        return self.built(scope, type_, depth)

    def condition(self, scope):
        """A condition. What it reads is most often of another type than what depends on it."""
        able = [name for name, type_ in scope.variables().items() if type_[0] in ("Fut", *self.interfaces)]
        if scope.class_ and self.often(0.2):
            return f"as{self.rng.choice(self.classes[scope.class_][2])}(this) == null"
        return f"{self.rng.choice(able)} == null" if able and self.often(0.8) else "1 == 1"

    def built(self, scope, type_, depth):
        """An expression that no variable is needed for."""
        name, *others = type_
        if name in self.interfaces:
            own = scope.class_ and name in self.classes[scope.class_][2]
            return "this" if own and self.often(0.8) else "null"
        if name == "List":
            short = depth == 0 or self.often(0.3)
            return "Nil" if short else f"Cons({self.exact(scope, others[0], depth - 1)}, {self.value(scope, type_, 0)})"
        if name == "Pair":
            return f"Pair({', '.join(self.exact(scope, other, max(depth - 1, 0)) for other in others)})"
        return {"Fut": "null", "Int": "7", "Unit": "Unit"}[name]

    def exact(self, scope, type_, depth):
        """An expression of just this type; what fits an interface gets its type from a function."""
        value = self.value(scope, type_, depth)
        return f"as{type_[0]}({value})" if type_[0] in self.interfaces else value

    def taken(self, scope, type_):
        """A part of a list or of a pair, if there is one that fits."""
        ways = []
        for name, other in scope.variables().items():
            if other[0] == "List" and self.is_below(other[1], type_):
                ways += [f"head({name})", f"(case {name} {{ Cons(x, y) => x; Nil => head({name}); }})"]
            if other == type_ and type_[0] == "List":
                ways.append(f"tail({name})")
            if other[0] == "Pair":
                ways += [f"{part}({name})" for part, it in zip(("fst", "snd"), other[1:]) if self.is_below(it, type_)]
        return self.rng.choice(ways) if ways else None

    def values(self, scope, types):
        return ", ".join(self.value(scope, type_) for type_ in types)

    # ---- statements ----

    def statements(self, scope, count, depth=1):
        return "".join(self.statement(scope, depth) for _ in range(count))

    def statement(self, scope, depth):
        ways = ["declare", "assign", "new", "new", "message", "message", "get", "get", "await"]
        way = self.rng.choice(ways + ["own", "own"] * bool(scope.class_) + ["if", "while"] * bool(depth))
        if way in ("if", "while"):
            inner = scope.inner()
            body = f"{way} ({self.condition(scope)}) {{\n{self.statements(inner, self.rng.randint(1, 3), depth - 1)}}}"
            after = f" else {{\n{self.statements(scope.inner(), 1, depth - 1)}}}" if self.often(0.4) else ""
            return f"{body}{after * (way == 'if')}\n"
        if way == "declare":
            type_ = self.type_of()
            return self.given(scope, type_, self.value(scope, type_), False)
        makers = {"assign": self.assignment, "new": self.creation, "message": self.message, "get": self.get,
                  "await": self.wait, "own": self.own_call}
        return makers[way](scope)

    def given(self, scope, type_, side, can_be_alone=True):
        """What a right side of this type goes to: nothing, a variable, or most often a new local."""
        fitting = [name for name, other in scope.variables().items() if self.is_below(type_, other)]
        if fitting and self.often(0.4):
            return f"{self.rng.choice(fitting)} = {side};\n"
        if can_be_alone and self.often(0.1):
            return f"{side};\n"
        name = self.fresh("v")
        able = [other for other in sorted(self.interfaces) if self.is_below(type_, (other,))]
        scope.locals[name] = (self.rng.choice(able),) if able else type_
        return f"{written(scope.locals[name])} {name} = {side};\n"

    def assignment(self, scope):
        if not scope.variables():
            return "skip;\n"
        name, type_ = self.rng.choice(sorted(scope.variables().items()))
        return f"{name} = {self.value(scope, type_)};\n"

    def creation(self, scope, name=None):
        name = name or self.rng.choice(sorted(self.classes))
        types, _, interfaces, _ = self.classes[name]
        cog = "cog " if self.often(0.5) else ""
        return self.given(scope, (self.rng.choice(interfaces),), f"new {cog}{name}({self.values(scope, types)})")

    def message(self, scope, result=None):
        """A message: to what an expression of an interface gives, or to `this`, and so for a result of one type."""
        if scope.class_ and (result or self.often(0.25)):
            receiver, methods = "this", self.classes[scope.class_][3]
            methods = {method: types for method, types in methods.items() if result in (None, types[1])}
        else:
            known = sorted({type_[0] for type_ in scope.variables().values()} & set(self.interfaces))
            type_ = (self.rng.choice(known or sorted(self.interfaces)),)
            receiver, methods = self.exact(scope, type_, 1), self.interfaces[type_[0]][1]
        if not methods:
            return self.assignment(scope)
        method, (types, result) = self.rng.choice(sorted(methods.items()))
        return self.given(scope, ("Fut", result), f"{receiver}!{method}({self.values(scope, types)})")

    def own_call(self, scope):
        method, (types, result) = self.rng.choice(sorted(self.classes[scope.class_][3].items()))
        return self.given(scope, result, f"this.{method}({self.values(scope, types)})")

    def get(self, scope):
        futures = [name for name, type_ in sorted(scope.locals.items()) if type_[0] == "Fut"]
        if not futures:
            return self.message(scope)
        name = self.rng.choice(futures)
        return self.given(scope, scope.locals[name][1], f"{name}.get")

    def wait(self, scope):
        futures = [name for name, type_ in sorted(scope.locals.items()) if type_[0] == "Fut"]
        return f"await {self.rng.choice(futures)}?;\n" if futures else "suspend;\n"

    # ---- declarations ----

    def plan(self):
        """The types of all declarations."""
        for _ in range(self.rng.randint(2, 4)):
            self.interfaces[self.fresh("I")] = ([], {})
        for name, (above, methods) in self.interfaces.items():
            before = [other for other in self.interfaces if int(other[1:]) < int(name[1:])]
            extended = self.rng.sample(before, min(len(before), self.rng.randint(0, 1)))
            above += [name, *(other for one in extended for other in self.interfaces[one][0])]
            methods.update({method: types for one in extended for method, types in self.interfaces[one][1].items()})
            methods.update(self.methods("m", self.rng.randint(1, 2)))
        for _ in range(self.rng.randint(2, 4)):
            implemented = self.rng.sample(sorted(self.interfaces), self.rng.randint(1, 2))
            above = sorted({other for one in implemented for other in self.interfaces[one][0]})
            methods = {method: types for one in above for method, types in self.interfaces[one][1].items()}
            methods.update(self.methods("p", self.rng.randint(0, 2)))
            if self.often(0.25):
                methods["run"] = ([], UNIT)
            types = [self.type_of(1, False) for _ in range(self.rng.randint(0, 2))]
            fields = [self.type_of(1, False) for _ in range(self.rng.randint(0, 3))]
            self.classes[self.fresh("C")] = (types, fields, above, methods)

    def methods(self, letter, count):
        """Methods. Some results are futures of results that there are already."""
        methods = {}
        for _ in range(count):
            future = ("Fut", self.rng.choice(self.results))
            self.results.append(self.rng.choice([self.type_of(), self.type_of(), UNIT, future]))
            methods[self.fresh(letter)] = ([self.type_of() for _ in range(self.rng.randint(0, 2))], self.results[-1])
        return methods

    def params(self, types):
        named = {self.fresh("a"): type_ for type_ in types}
        return named, ", ".join(f"{written(type_)} {name}" for name, type_ in named.items())

    def interface_of(self, name):
        above, methods = self.interfaces[name]
        inherited = {method for one in above[1:] for method in self.interfaces[one][1]}
        heads = "".join(f"  {written(result)} {method}({self.params(types)[1]});\n"
                        for method, (types, result) in methods.items() if method not in inherited)
        extends = f" extends {above[1]}" if len(above) > 1 else ""
        return f"interface {name}{extends} {{\n{heads}}}\ndef {name} as{name}({name} x) = x;\n"

    def class_of(self, name):
        types, fields, above, methods = self.classes[name]
        kept, params = self.params(types)
        lines = []
        for type_ in fields:
            field = self.fresh("f")
            bare = type_[0] in self.interfaces and self.often(0.3)
            lines.append(f"{written(type_)} {field}{'' if bare else ' = ' + self.value(Scope(kept), type_)};\n")
            kept[field] = type_
        lines += [self.method_of(name, method, kept) for method in methods]
        return f"class {name}({params}) implements {', '.join(above)} {{\n{''.join(lines)}}}\n"

    def method_of(self, class_, method, kept):
        types, result = self.classes[class_][3][method]
        scope = Scope(kept, class_)
        scope.locals, params = self.params(types)
        body = self.statements(scope, self.rng.randint(0, 5))
        if result[0] == "Fut" and self.often(0.7):
            body += self.message(scope, result[1])
        back = "" if result == UNIT else f"return {self.value(scope, result)};\n"
        return f"{written(result)} {method}({params}) {{\n{body}{back}}}\n"

    def program(self):
        """A program. Its main block makes an object of each class first."""
        self.plan()
        declarations = [self.interface_of(name) for name in self.interfaces]
        declarations += [self.class_of(name) for name in self.classes]
        scope = Scope({})
        made = "".join(self.creation(scope, name) for name in self.classes)
        return f"{''.join(declarations)}{{\n{made}{self.statements(scope, self.rng.randint(4, 12))}}}\n"
