"""Makes programs at random in which no type offends, with what can be planted in them, for random_types."""
from planting import Mark, Site, applied, apart, call, planting
from typed_expressions import BOOL, INT, STRING, UNIT, Expressions, Scope, parens, written

# the kind of the place that a program in which nothing offends has alone
NOTHING = "nothing offends"


def further_anywhere(fresh):
    """What can be planted between any two statements. The name is one that nothing has."""
    return {
        "T2 no value": planting("§ head ( Nil ) ! nosuch ( 7 ) ;"),
        "T2 null": planting("§ null . nosuch ( ) ;"),
        "T1 receiver without a type": planting('( § 1 + "w" ) ! nosuch ( ) ;'),
        "T1 part of a receiver": planting('length ( § 1 + "w" ) ! nosuch ( ) ;'),
        "T1 sum": planting(f'Int {fresh} = 1 + "w" + ( § 2 + "v" ) ;'),
        "T1 guard with a sum": planting('await § ( 1 + "w" ) ? ;'),
        "T3 further local": planting(f"List < Int > § {fresh} ;"),
        "T3 before a type": planting(f'Maybe < Fut < Int > > § {fresh} ; println ( 7 ) ;'),
        "N2 after a type": planting("println ( 7 ) ; § nosuch = 1 ;"),
        "N2 awaited": planting("println ( 7 ) ; await § nosuch ? ;")}


class Maker(Expressions):
    """Makes one program."""

    # ---- statements ----

    def block(self, scope, depth, count=4):
        scope, items = scope.inner(), []
        for _ in range(self.rng.randint(1, count)):
            items += [self.further_statement(scope), self.statement(scope, depth)]
        return ["{", *items, self.further_statement(scope), "}"]

    def statement(self, scope, depth):
        """A statement; a local that it declares is added to the scope."""
        ways = ["side", "side", "declare", "declare", "assign", "print", "await", "guard", "do", "skip"]
        way = self.rng.choice(ways + ["block", "if", "while"] * bool(depth))
        if way in ("block", "if", "while"):
            return self.compound(way, scope, depth - 1)
        if way == "side":
            found = self.right_side(scope)
            return self.declared(scope, *found) if found else self.declaration(scope)
        makers = {"declare": self.declaration, "assign": self.assignment, "print": self.print_of,
                  "await": self.await_of, "guard": self.guard_of, "do": self.alone}
        return makers[way](scope) if way in makers else [self.rng.choice(["skip", "suspend"]), ";"]

    def declared(self, scope, type_, side):
        """A declaration of a local with a right side of this type, or an assignment, or the right side alone."""
        way = self.rng.random()
        if way < 0.2:
            return [side, ";"]
        targets = [items for items, other in scope.variables() if other == type_]
        if targets and way < 0.4:
            return [*self.rng.choice(targets), "=", side, ";"]
        name, other = self.local_name(scope), next(other for other in (STRING, INT, BOOL) if other != type_)
        scope.slots[name] = type_
        return Site([*written(type_), name, "=", side, ";"], {
            "T1 right side": lambda mark: [*written(other), name, "=", mark, side, ";"]})

    def local_name(self, scope):
        """A name for a local: sometimes that of a field, which it hides."""
        hidden = sorted(set(scope.fields) - set(scope.slots))
        return self.rng.choice(hidden) if hidden and self.rng.random() < 0.1 else self.fresh("v")

    def declaration(self, scope):
        type_ = self.type_of()
        value, name = self.asked(scope, type_, "initial value of a local"), self.local_name(scope)
        scope.slots[name] = type_
        if self.has_null(type_) and self.rng.random() < 0.3:
            return [*written(type_), name, ";"]
        missing = not self.has_null(type_)
        return Site([*written(type_), name, "=", value, ";"], {
            "T3 local": missing and (lambda mark: [*written(type_), mark, name, ";"])})

    def assignment(self, scope):
        if not scope.variables():
            return self.declaration(scope)
        target, type_ = self.rng.choice(scope.variables())
        what = "value assigned to a local" if target[0] in scope.slots else "value assigned to a field"
        return [*target, "=", self.asked(scope, type_, what), ";"]

    def print_of(self, scope):
        value = self.fitting(scope, STRING)
        return Site(["println", "(", value, ")", ";"], {
            "T1 print": lambda mark: [mark, "println", "(", self.wrong(STRING), ")", ";"]})

    def await_of(self, scope):
        able = [name for name, other in scope.slots.items() if other[0] == "Fut"]
        if not able:
            return self.print_of(scope)
        first, more = self.rng.choice(able), self.rng.choice(able)
        return Site(["await", first, "?", *(["&&", more, "?"] * (self.rng.random() < 0.3)), ";"], {
            "T1 future as a Bool": lambda mark: ["await", first, "?", "&&", mark, more, ";"],
            "T1 part of a guard": lambda mark: ["await", first, "?", "&&", mark, self.wrong(BOOL), ";"]})

    def guard_of(self, scope):
        if self.runs:
            return self.await_of(scope)
        return ["await", self.asked(scope, BOOL, "guard", 0), ";"]

    def alone(self, scope):
        return [parens(self.fitting(scope, self.type_of())), ";"]

    def compound(self, way, scope, depth):
        if way == "block":
            return self.block(scope, depth)
        items = [way, "(", self.asked(scope, BOOL, "condition of a statement", 1), ")", self.block(scope, depth)]
        return items + ["else", self.block(scope, depth)] * (way == "if" and self.rng.random() < 0.5)

    def further_statement(self, scope):
        """No statement; where one is planted it offends."""
        fresh, plants = self.fresh("v"), {}
        unfit = [name for name, other in scope.slots.items() if other[0] != "Fut"]
        no_objects = [items for items, other in scope.variables() if other[0] not in self.interfaces]
        if unfit:
            name = self.rng.choice(unfit)
            plants |= {"T1 get of no future": planting(f"§ {name} . get ;"),
                       "T1 await of no future": planting(f"await § {name} ? ;")}
        if no_objects:
            text = " ".join(self.rng.choice(no_objects))
            plants["T2 no object"] = planting(f"§ {text} ! nosuch ( ) ;")
        if scope.slots:
            plants["N1 local"] = planting(f"Int § {self.rng.choice(sorted(scope.slots))} = 1 ;")
        objects = [items for items, _ in self.receivers(scope)]
        if objects:
            text = " ".join(self.rng.choice(objects))
            plants |= {"T1 object as a number": planting(f"Int {fresh} = § {text} ;"),
                       "T1 get of an object": planting(f"§ {text} . get ;")}
        plants |= further_anywhere(fresh)
        if scope.kind == "main":
            plants["T5 return in main"] = planting("§ return Unit ;")
        if scope.kind == "method":
            plants |= self.further_in_method(scope, fresh)
        return Site([], plants)

    def further_in_method(self, scope, fresh):
        """What can be planted in a method alone."""
        value, other = self.fitting(scope, scope.result, 0), ("Unit" if scope.result != UNIT else "Int")
        methods = sorted(self.classes[scope.own_class][2].items())
        plants = {
            "T5 return in a branch": lambda mark: ["if", "(", "True", ")", mark, "return", value, ";"],
            "T5 return in a loop": lambda mark: ["while", "(", "False", ")", "{", mark, "return", value, ";", "}"],
            "T1 destiny": planting(f"Fut < {other} > {fresh} = § destiny ;"),
            "T1 this as a number": planting(f"Int {fresh} = § this ;"),
            "T1 this and null": planting("§ this == null ;"),
            "T2 own method in a sum": planting('println ( toString ( § this . nosuch ( 1 + "w" ) ) ) ;'),
            "T1 unknown own method in a sum": planting("println ( toString ( § this . nosuch ( 7 ) ) ) ;"),
            "T2 own method": planting("§ this . nosuch ( ) ;")}
        futures = [name for name, type_ in scope.fields.items() if type_[0] == "Fut"]
        if futures:
            name = self.rng.choice(futures)
            plants |= {"T1 get of a field": planting(f"§ this . {name} . get ;"),
                       "T1 await of a field": planting(f"await § this . {name} ? ;")}
        others = sorted(set(self.interfaces) - self.implemented(scope.own_class))
        if others:
            plants["T1 this as another interface"] = planting(f"{self.rng.choice(others)} {fresh} = § this ;")
        if methods:
            name, (types, _) = self.rng.choice(methods)
            values = [self.fitting(scope, type_, 0) for type_ in types]
            plants["T1 own call in a sum"] = lambda mark: ["println", "(", "toString", "(", mark, "this", ".",
                                                           *call(name, values), ")", ")", ";"]
        return plants

    # ---- declarations ----

    def params(self, types):
        """Parameters of these types, and their names with the types."""
        named = [(self.fresh("a"), type_) for type_ in types]
        return apart([[*written(type_), name] for name, type_ in named]), dict(named)

    def data_of(self, name):
        count, constructors = self.data[name]
        bars = [item for constructor, types in constructors.items()
                for item in ("|", *applied(constructor, [written(type_) for type_ in types]))][1:]
        return ["data", *applied(name, [["A"]] * count, "<>"), "=", *bars, ";"]

    def function_of(self, name):
        types, result = self.functions[name]
        params, slots = self.params(types)
        value = self.asked(Scope("function", slots), result, "value of a function", 3)
        return ["def", *written(result), name, "(", *params, ")", "=", value, ";"]

    def signature(self, name, types, result):
        return [*written(result), name, "(", *self.params(types)[0], ")", ";"]

    def interface_of(self, name):
        extended, methods = self.interfaces[name]
        heads = [self.signature(method, *types) for method, types in methods.items()]
        after = ["extends", *apart([[other] for other in extended])] if extended else []
        return ["interface", name, *after, "{", *heads, "}"]

    def field_of(self, name, type_, scope):
        """A field; its initial value sees what is before it."""
        if self.has_null(type_) and self.rng.random() < 0.4:
            return [*written(type_), name, ";"]
        value, missing = self.asked(scope, type_, "initial value of a field"), not self.has_null(type_)
        return Site([*written(type_), name, "=", value, ";"], {
            "T3 field": missing and (lambda mark: [*written(type_), mark, name, ";"])})

    def end_of(self, scope):
        """The end of the body of a method, and of the blocks that it ends in."""
        if scope.result == UNIT and self.rng.random() < 0.6:
            return ["}"]
        value, blocks = self.asked(scope, scope.result, "returned value"), self.rng.choice([0, 0, 0, 1, 2])
        inner, empty = ["return", value, ";"], ["{", "}"] * self.rng.choice([0, 0, 1])
        whole = ["{"] * blocks + inner + ["}"] * blocks + empty
        plants = {"T5 return and a statement": lambda mark: ["{"] * blocks + [mark, *inner] + ["}"] * blocks
                  + ["skip", ";", "}"]}
        if scope.result != UNIT:
            plants["T5 no return"] = lambda mark: [*empty, mark, "}"]
            plants["T5 no return after a block"] = lambda mark: ["{", "skip", ";", "}", mark, "}"]
        return Site([*whole, "}"], plants)

    def method_of(self, class_, name, fields):
        """A method of a class: its result type, and what follows."""
        types, result = self.classes[class_][2][name]
        params, slots = self.params(types)
        scope, items = Scope("method", slots, fields, class_, result), []
        for _ in range(self.rng.randint(0, 3)):
            items += [self.further_statement(scope), self.statement(scope, 2)]
        items += [self.further_statement(scope), self.end_of(scope)]
        return written(result), [name, "(", *params, ")", "{", *items]

    def class_of(self, name):
        """A class. Its members are a name, a type, and what follows; a field has no name here."""
        types, implemented, methods = self.classes[name]
        params, seen = self.params(types)
        later = {self.fresh("f"): self.kept_type() for _ in range(self.rng.randint(0, 3))}
        fields, members = {**seen, **later}, []
        for field, type_ in later.items():
            members.append((None, [], self.field_of(field, type_, Scope("initial", seen))))
            seen[field] = type_
        for method in methods:
            members.insert(self.rng.randint(0, len(members)), (method, *self.method_of(name, method, fields)))
        head = ["(", *params, ")"] if params else []
        return self.class_site(name, [*head, "implements", *apart([[other] for other in implemented]), "{"], members)

    def class_site(self, name, head, members):
        """A class. Without a method of its interfaces it offends, and so with one that has another result type."""
        asked = sorted(method for other in self.implemented(name) for method in self.interfaces[other][1])

        def whole(*before, but="", other=None):
            kept = [member for member in members if member[0] != but or other]
            return ["class", *before, name, *head, *([other if method == but else type_, rest]
                                                     for method, type_, rest in kept), "}"]

        def changed(mark):
            method = self.rng.choice(asked)
            return whole(mark, but=method, other=written(("Fut", self.classes[name][2][method][1])))
        return Site(whole(), {
            "T4 method that is missing": bool(asked) and (lambda mark: whole(mark, but=self.rng.choice(asked))),
            "T4 method with another result": bool(asked) and changed})

    def further_declaration(self):
        """No declaration; where one is planted it offends."""
        fresh, plants = self.fresh("New"), {
            "N4 interface": planting(f"interface § {self.fresh('New')} extends New{self.number} {{ }}"),
            "T1 further function": planting(f'def Int {self.fresh("g")} ( ) = § "w" ;'),
            "T1 further function with a list":
                planting(f'def List < Int > {self.fresh("g")} ( ) = § Cons ( "w" , Nil ) ;'),
            "T5 further class": planting(f"class {self.fresh('New')} {{ Int m ( ) {{ skip ; § }} }}"),
            "T3 further class": planting(f"class {self.fresh('New')} {{ Int § a ; }}")}
        able = [name for name in sorted(self.interfaces) if self.methods_of(name)]
        if able:
            name = self.rng.choice(able)
            method, (types, result) = self.rng.choice(sorted(self.methods_of(name).items()))
            other = self.signature(method, types, ("Fut", result))
            longer = self.signature(method, [*types, INT], result)
            plants |= {
                "T4 class without methods": planting(f"class § {fresh} implements {name} {{ }}"),
                "T4 interface with another result":
                    lambda mark: ["interface", mark, fresh, "extends", name, "{", *other, "}"],
                "T4 interface with more parameters":
                    lambda mark: ["interface", mark, fresh, "extends", name, "{", *longer, "}"]}
        return Site([], plants)

    # ---- programs ----

    def main_block(self):
        """The main block. In a program that runs some objects are made first, and their methods are called."""
        scope = Scope("main", result=UNIT)
        if not self.runs:
            return self.block(scope, 2, 9)
        opening = [items for _ in range(len(self.classes) + 1) for items in self.object_with_calls(scope)]
        return ["{", *opening, self.block(scope, 2, 9), "}"]

    def object_with_calls(self, scope):
        """Statements that make an object, and call each method of the interface by which it is known."""
        type_, made = self.new_of(scope)
        name = self.fresh("o")
        scope.slots[name] = type_
        calls = [self.called(scope, [name], "!", [method], "an interface")
                 for method in sorted(self.methods_of(type_[0]).items())]
        return [[*written(type_), name, "=", made, ";"], *(self.declared(scope, *call) for call in calls)]

    def planned_data(self):
        for _ in range(self.rng.randint(1, 2)):
            name, count = self.fresh("D"), self.rng.randint(0, 1)
            first = [self.plain_type() for _ in range(self.rng.randint(0, 2))] + [("A",)] * count
            self.data[name] = (count, {self.fresh("K"): first, self.fresh("K"): [INT]})

    def planned_interfaces(self):
        for _ in range(self.rng.randint(2, 4)):
            before = sorted(self.interfaces)
            extended = self.rng.sample(before, min(len(before), self.rng.randint(0, 2)))
            name = self.fresh("I")
            again = self.methods_of(extended[0]) if extended and self.rng.random() < 0.3 else {}
            self.interfaces[name] = (extended, again)
            for _ in range(self.rng.randint(0, 2)):
                types = [self.type_of(1) for _ in range(self.rng.randint(0, 2))]
                again[self.fresh("m")] = (types, self.type_of(1))

    def planned_classes(self):
        for _ in range(self.rng.randint(1, 3)):
            name = self.fresh("C")
            implemented = self.rng.sample(sorted(self.interfaces), self.rng.randint(1, 2))
            methods = {}
            for other in implemented:
                methods.update(self.methods_of(other))
            for _ in range(self.rng.randint(0, 2)):
                methods[self.fresh("m")] = ([self.type_of(1) for _ in range(self.rng.randint(0, 2))],
                                            self.rng.choice([UNIT, self.type_of(1)]))
            names = sorted(methods)
            self.rng.shuffle(names)
            types = [self.kept_type() for _ in range(self.rng.randint(0, 2))]
            self.classes[name] = (types, implemented, {method: methods[method] for method in names})

    def program(self):
        """A program. The types of its declarations are chosen before anything is made of them."""
        self.planned_data()
        self.planned_interfaces()
        for _ in range(self.rng.randint(1, 3)):
            types = [self.type_of() for _ in range(self.rng.randint(0, 3))]
            self.functions[self.fresh("g")] = (types, self.type_of(1, nullable=False))
        self.planned_classes()
        plan = [(self.data_of, name) for name in self.data] + [(self.interface_of, name) for name in self.interfaces]
        plan += [(self.function_of, name) for name in self.functions] + [(self.class_of, name) for name in self.classes]
        self.rng.shuffle(plan)
        items = [Mark(NOTHING)]
        for make, name in plan:
            items += [make(name), self.further_declaration()]
        return [*items, self.main_block()]
