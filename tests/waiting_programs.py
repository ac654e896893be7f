"""Makes programs at random whose tasks wait for one another, for chains_by_search. They have no offence.

Each run ends soon: each method has a parameter of the type `Left`, a number of steps, does nothing where none is left,
and gives one step less to what it calls. A method `run` gives none.
"""
from object_programs import UNIT, Maker, Scope, written

LEFT = ("Left",)
HEAD = """data Left = Stop | Step(Left);
def Left less(Left left) = case left { Stop => Stop; Step(rest) => rest; };
"""
STEPS = "Step(Step(Stop))"


class WaitingMaker(Maker):
    """Makes one program. How often a task waits by a `get` alone differs from program to program."""

    def __init__(self, rng):
        super().__init__(rng)
        self.blocking = rng.choice([0.02, 0.1, 0.3, 0.6])

    # ---- types and expressions ----

    def methods(self, letter, count):
        """Methods, as they are, with how many steps are left as the last parameter."""
        return {name: ([*types, LEFT], result) for name, (types, result) in super().methods(letter, count).items()}

    def value(self, scope, type_, depth=2):
        """An expression that fits a type."""
        if type_ == LEFT:
            left = self.left_of(scope)
            return f"less({left})" if left else "Stop" if scope.class_ else STEPS
        return super().value(scope, type_, depth)

    def left_of(self, scope):
        """The parameter that says how many steps are left, if there is one."""
        return next((name for name, type_ in scope.locals.items() if type_ == LEFT), None)

    def built(self, scope, type_, depth):
        """An expression that need not read a variable; an object or a future is one that there is, if there is any."""
        found = [name for name, other in scope.variables().items() if self.is_below(other, type_)]
        if found and type_[0] in ("Fut", *self.interfaces) and self.often(0.9):
            return self.rng.choice(found)
        return super().built(scope, type_, depth)

    def taken(self, scope, type_):
        """A part of a list or of a pair, if there is one that fits. A list is often empty, so it comes seldom."""
        return super().taken(scope, type_) if self.often(0.2) else None

    # ---- statements ----

    def statement(self, scope, depth):
        """A statement, or some. Most are calls and what waits for them."""
        ways = ["message"] * 5 + ["wait"] * 5 + ["declare", "assign"]
        ways += ["new"] * (2 * (not scope.class_ or bool(self.left_of(scope)))) + ["own"] * (2 * bool(scope.class_))
        way = self.rng.choice(ways + ["if", "while"] * bool(depth))
        if way == "if":
            inner = self.statements(scope.inner(), self.rng.randint(1, 3), depth - 1)
            after = f" else {{\n{self.statements(scope.inner(), 1, depth - 1)}}}" if self.often(0.4) else ""
            return f"if ({self.condition(scope)}) {{\n{inner}}}{after}\n"
        if way == "while":
            return self.loop(scope, depth)
        if way == "declare":
            type_ = self.rng.choice([*scope.variables().values(), self.type_of(1, False)])
            return self.given(scope, type_, self.value(scope, type_), False)
        makers = {"assign": self.assignment, "new": self.creation, "message": self.message, "wait": self.wait,
                  "own": self.own_call}
        return makers[way](scope)

    def loop(self, scope, depth):
        """A loop of at most two turns, and fewer where fewer steps are left."""
        turns, inner = self.fresh("t"), scope.inner()
        body = self.statements(inner, self.rng.randint(1, 3), depth - 1)
        first = self.left_of(scope) or ("Stop" if scope.class_ else STEPS)
        return f"Left {turns} = {first};\nwhile ({turns} != Stop) {{\n{turns} = less({turns});\n{body}}}\n"

    def wait(self, scope):
        """A `get`, an `await` or both, most often of a future that came late."""
        futures = [name for name, type_ in scope.locals.items() if type_[0] == "Fut"]
        if not futures:
            return self.message(scope)
        name = futures[-1] if self.often(0.6) else self.rng.choice(futures)
        got = self.given(scope, scope.locals[name][1], f"{name}.get")
        if self.often(self.blocking):
            return got
        other = f" && {self.rng.choice(futures)}?" if self.often(0.2) else ""
        return f"await {name}?{other};\n{got}"

    # ---- declarations ----

    def method_of(self, class_, method, kept):
        """A method. Its statements are those of a branch, for which a step must be left. None of them calls `run`."""
        *others, methods = self.classes[class_]
        types, result = methods.get(method, ([], UNIT))
        self.classes[class_] = (*others, {name: it for name, it in methods.items() if name != "run"})
        scope = Scope(kept, class_)
        scope.locals, params = self.params(types)
        inner = scope.inner()
        body = self.statements(inner, self.rng.randint(1, 4))
        if method != "run":
            body = f"if ({self.left_of(scope)} != Stop) {{\n{body}}}\n"
        back = "" if result == UNIT else f"return {self.value(scope, result)};\n"
        return f"{written(result)} {method}({params}) {{\n{body}{back}}}\n"

    def program(self):
        """A program. Its main block makes an object of each class first."""
        return HEAD + super().program()
