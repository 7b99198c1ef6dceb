"""Makes programs of the profile by a number, and changes of them: two packages, the second over the first, and a subprogram over both.

They have types of all classes, records, arrays by every kind of index, aggregates, constants, named numbers, variables, contracts,
calls, attributes, conversions, quantifiers, loops with invariants and variants, case statements and a private part. What is made is
to be accepted by Ada and by the profile; no operation of static operands is made whose value might lie outside a base range."""

import random
import re


class Kind:
    """A type or subtype: its name, its class and what its class needs. A subtype is `of` another kind."""

    def __init__(self, name, sort, **more):
        self.name, self.sort = name, sort
        self.__dict__.update(more)


INTEGER = Kind("Integer", "signed", low=-2**31, high=2**31 - 1)
NATURAL = Kind("Natural", "signed", low=0, high=2**31 - 1, of=INTEGER)
POSITIVE = Kind("Positive", "signed", low=1, high=2**31 - 1, of=INTEGER)
LONG = Kind("Long_Long_Integer", "signed", low=-2**63, high=2**63 - 1)
BOOLEAN = Kind("Boolean", "truth")
STANDARD = [INTEGER, NATURAL, POSITIVE, LONG, BOOLEAN]
NUMBERS, DISCRETE = ("signed", "modular"), ("signed", "modular", "enumeration")


def base(kind):
    while hasattr(kind, "of"):
        kind = kind.of
    return kind


def shown(kind, number):
    """The static value of a number or a position."""
    if kind.sort == "enumeration":
        return kind.literals[number]
    return f"({number})" if number < 0 else str(number)


def fits(kind, other):
    """Whether a value of the other subtype may be given to this one."""
    if base(kind) is not base(other):
        return False
    return kind.sort == "open" or kind.sort != "array" or other.sort == "array" and (kind.first, kind.last) == (other.first, other.last)


class Scope:
    """What is visible where text is made: objects with their kinds and whether they may be written, and what may be called."""

    def __init__(self, objects=(), functions=(), procedures=(), kinds=(), numbers=()):
        self.objects, self.functions = list(objects), list(functions)
        self.procedures, self.kinds, self.numbers = list(procedures), list(kinds), list(numbers)

    def inner(self):
        return Scope(self.objects, self.functions, self.procedures, self.kinds, self.numbers)


class Maker:
    """Makes one unit, its specification and its body."""

    def __init__(self, rng, name, before=None):
        self.rng, self.name, self.count = rng, name, 0
        self.scope = Scope(kinds=STANDARD) if before is None else before.scope.inner()
        self.spec, self.private, self.body = [], [], []
        # what only this unit sees
        self.hidden, self.hidden_procedures, self.hidden_functions = [], [], []
        self.static = set() if before is None else set(before.static)
        # parameters of loops over bounds: in Ada their subtype has these bounds, here it is that of their type
        self.unselected = set()

    def fresh(self, stem):
        self.count += 1
        return f"{stem}_{self.name[0]}{self.count}"

    def within(self):
        """What a body sees."""
        inner = self.scope.inner()
        inner.objects += self.hidden
        inner.procedures += self.hidden_procedures
        inner.functions += self.hidden_functions
        return inner

    # ---- types

    def part(self, sorts=None):
        return self.rng.choice([k for k in self.scope.kinds if (k.sort != "open" if sorts is None else k.sort in sorts)])

    def small(self, kind, most):
        """Bounds of a few values of a discrete kind."""
        low = self.rng.randint(max(kind.low, -50), min(kind.high, 50)) if kind.low <= 50 and kind.high >= -50 else kind.low
        return low, min(kind.high, low + self.rng.randint(0, most))

    def kind(self):
        rng, name = self.rng, self.fresh("T")
        sort = rng.choice(["signed", "modular", "enumeration", "record", "array", "array", "open", "subtype", "derived", "same"])
        if sort == "signed":
            low = rng.choice([rng.randint(-200, 5), -128, -2**15, 0])
            kind = Kind(name, "signed", low=low, high=low + rng.choice([rng.randint(20, 400), 255, 2**16]))
            self.spec.append(f"   type {name} is range {kind.low} .. {kind.high};")
        elif sort == "modular":
            kind = Kind(name, "modular", low=0, high=rng.choice([8, 10, 256, 2**16, 2**32]) - 1)
            self.spec.append(f"   type {name} is mod {rng.choice([str(kind.high + 1), f'2 ** {(kind.high).bit_length()}'] if kind.high != 9 else ['10'])};")
        elif sort == "enumeration":
            literals = [self.fresh("Lit") for _ in range(rng.randint(2, 5))]
            kind = Kind(name, "enumeration", literals=literals, low=0, high=len(literals) - 1)
            self.spec.append(f"   type {name} is ({', '.join(literals)});")
        elif sort == "record":
            parts = [(self.fresh("C"), self.part()) for _ in range(rng.randint(1, 4))]
            kind = Kind(name, "record", parts=parts)
            self.spec += [f"   type {name} is record", *[f"      {n} : {k.name};" for n, k in parts], "   end record;"]
        elif sort == "array":
            kind = self.array(name)
        elif sort == "open":
            index, item = self.part(DISCRETE), self.part()
            whole = Kind(self.fresh("Arr"), "open", index=index, item=item)
            self.spec.append(f"   type {whole.name} is array ({index.name} range <>) of {item.name};")
            self.scope.kinds.append(whole)
            first, last = self.small(index, 5)
            kind = Kind(name, "array", index=index, item=item, first=first, last=last, of=whole)
            self.spec.append(f"   subtype {name} is {whole.name} ({shown(index, first)} .. {shown(index, last)});")
        elif sort == "derived":
            # a type of another package would hand down its subprograms
            parent = rng.choice([k for k in self.scope.kinds if k.sort in NUMBERS and (base(k) in STANDARD or base(k).name.split("_")[1][0] == self.name[0])])
            low, high = self.between(parent)
            kind = Kind(name, parent.sort, low=low, high=high)
            if parent.sort == "modular":
                kind = Kind(name, parent.sort, low=parent.low, high=parent.high)
                self.spec.append(f"   type {name} is new {parent.name};")
            else:
                self.spec.append(f"   type {name} is new {parent.name} range {low} .. {high};")
        elif sort == "same":
            parent = self.part()
            kind = Kind(name, parent.sort, **{k: v for k, v in parent.__dict__.items() if k not in ("name", "sort", "of")}, of=parent)
            self.spec.append(f"   subtype {name} is {parent.name};")
        else:
            parent = self.part(DISCRETE)
            low, high = self.between(parent)
            kind = Kind(name, parent.sort, low=low, high=high, of=parent)
            if parent.sort == "enumeration":
                kind.literals = parent.literals
            self.spec.append(f"   subtype {name} is {parent.name} range {shown(kind, low)} .. {shown(kind, high)};")
        self.scope.kinds.append(kind)

    def between(self, parent):
        low = self.rng.randint(parent.low, parent.low + (parent.high - parent.low) // 2)
        return low, self.rng.randint(min(low + 5, parent.high), parent.high)

    def array(self, name):
        rng, item = self.rng, self.part()
        form = rng.randint(0, 3)
        if form == 0:
            index, first = INTEGER, rng.randint(-2, 3)
            last = first + rng.randint(0, 5)
            text = f"{shown(INTEGER, first)} .. {last}"
        elif form == 1 and any(k.sort in DISCRETE and k.high - k.low < 12 for k in self.scope.kinds):
            index = rng.choice([k for k in self.scope.kinds if k.sort in DISCRETE and k.high - k.low < 12])
            first, last, text = index.low, index.high, index.name
        else:
            index = self.part(DISCRETE)
            first, last = self.small(index, 5)
            text = f"{index.name} range {shown(index, first)} .. {shown(index, last)}"
        self.spec.append(f"   type {name} is array ({text}) of {item.name};")
        return Kind(name, "array", index=index, item=item, first=first, last=last)

    # ---- static values

    def literal(self, kind):
        rng = self.rng
        if kind.sort in NUMBERS:
            numbers = [n for n, v in self.scope.numbers if kind.low <= v <= kind.high]
            if numbers and rng.random() < 0.2:
                return rng.choice(numbers)
            return shown(kind, rng.choice([kind.low, kind.high, rng.randint(kind.low, kind.high), rng.randint(max(kind.low, 0), kind.high) if kind.high >= 0 else kind.low]))
        if kind.sort == "truth":
            return rng.choice(["True", "False"])
        if kind.sort == "enumeration":
            return kind.literals[rng.randint(kind.low, kind.high)]
        return self.aggregate(kind, Scope(kinds=self.scope.kinds), 0)

    def aggregate(self, kind, scope, depth):
        rng = self.rng
        if kind.sort == "record":
            if rng.random() < 0.5 and len(kind.parts) > 1:
                return "(" + ", ".join(self.value(k, scope, depth) for _, k in kind.parts) + ")"
            parts = list(kind.parts)
            rng.shuffle(parts)
            return "(" + ", ".join(f"{n} => {self.value(k, scope, depth)}" for n, k in parts) + ")"
        item, index, form = kind.item, kind.index, rng.randint(0, 2)
        if form == 0 and kind.last > kind.first:
            return "(" + ", ".join(self.value(item, scope, depth) for _ in range(kind.first, kind.last + 1)) + ")"
        if form == 1 and kind.last > kind.first:
            middle = rng.randint(kind.first, kind.last - 1)
            return f"({shown(index, kind.first)} .. {shown(index, middle)} => {self.value(item, scope, depth)}, others => {self.value(item, scope, depth)})"
        if form == 2:
            return "(" + ", ".join(f"{shown(index, n)} => {self.value(item, scope, depth)}" for n in range(kind.first, kind.last + 1)) + ")"
        return f"(others => {self.value(item, scope, depth)})"

    # ---- names

    def element(self, scope, array):
        """An index of an array."""
        found = [n for n, k, _ in scope.objects if base(k) is base(array.index) and n not in self.static]
        if array.sort == "open" or found and self.rng.random() < 0.3:
            return self.rng.choice(found) if found else shown(array.index, array.index.low)
        return shown(array.index, self.rng.randint(array.first, array.last))

    def parts(self, name, kind, scope):
        """Parts of an object, each with its kind."""
        if kind.sort == "record":
            for n, k in kind.parts:
                yield f"{name}.{n}", k
                if k.sort in ("record", "array") and self.rng.random() < 0.5:
                    yield from self.parts(f"{name}.{n}", k, scope)
        if kind.sort in ("array", "open"):
            inner = f"{name} ({self.element(scope, kind)})"
            yield inner, kind.item
            if kind.item.sort in ("record", "array") and self.rng.random() < 0.5:
                yield from self.parts(inner, kind.item, scope)

    def named(self, kind, scope, static=True):
        """A name for a value of this kind: an object, a part of one, or none. Of static ones only those of the very subtype."""
        found = []
        for name, k, _ in scope.objects:
            if fits(kind, k) and (name not in self.static or k is kind and static):
                found.append(name)
            if k.sort in ("record", "array", "open"):
                found += [n for n, p in self.parts(name, k, scope) if fits(kind, p)]
        return self.rng.choice(found) if found else None

    def call(self, kind, scope, depth):
        found = [f for f in scope.functions if fits(kind, f[1])]
        if not found:
            return None
        name, _, formals = self.rng.choice(found)
        return name + self.actuals(formals, scope, depth)

    def actuals(self, formals, scope, depth):
        if not formals:
            return ""
        values = [(n, self.value(k, scope, depth)) for n, k, _ in formals]
        form = self.rng.random()
        if form < 0.2:
            self.rng.shuffle(values)
            return " (" + ", ".join(f"{n} => {v}" for n, v in values) + ")"
        if form < 0.3:
            return " (" + ", ".join([values[0][1]] + [f"{n} => {v}" for n, v in values[1:]]) + ")"
        return " (" + ", ".join(v for _, v in values) + ")"

    # ---- expressions

    def value(self, kind, scope, depth):
        rng = self.rng
        if kind.sort == "open":
            named = self.named(kind, scope)
            if named is not None and rng.random() < 0.8:
                return named
            whole = rng.choice([k for k in self.scope.kinds if k.sort == "array" and base(k) is base(kind)])
            return f"{whole.name}'{self.aggregate(whole, scope, depth - 1)}"
        if depth <= 0:
            return self.named(kind, scope) or self.literal(kind)
        choice = rng.random()
        if choice < 0.25:
            return self.named(kind, scope) or self.literal(kind)
        if choice < 0.4:
            return self.call(kind, scope, depth - 1) or self.literal(kind)
        if kind.sort == "truth":
            return self.truth(scope, depth)
        if kind.sort in NUMBERS:
            return self.number(kind, scope, depth)
        if kind.sort == "enumeration" and choice < 0.7:
            return self.position(kind, scope) or self.literal(kind)
        if kind.sort in ("record", "array") and choice < 0.8:
            return rng.choice(["", "", f"{kind.name}'"]) + self.aggregate(kind, scope, depth - 1)
        if choice < 0.9 and kind.sort != "array":
            return f"(if {self.truth(scope, depth - 1)} then {self.value(kind, scope, depth - 1)} else {self.value(kind, scope, depth - 1)})"
        return self.named(kind, scope) or self.literal(kind)

    def position(self, kind, scope):
        """A value of an enumeration by an attribute."""
        whole, rng = base(kind), self.rng
        left = self.named(kind, scope, static=False)
        number = self.named(INTEGER, scope, static=False)
        forms = [f"{kind.name}'First", f"{kind.name}'Last"]
        if left:
            forms += [f"{whole.name}'Succ ({left})", f"{whole.name}'Pred ({left})", f"{whole.name}'({left})", f"{kind.name} ({left})"]
        if number:
            forms.append(f"{whole.name}'Val ({number})")
        return rng.choice(forms)

    def number(self, kind, scope, depth):
        """A number, the first operand of which isn't static, so that no operation is evaluated when it is read."""
        rng = self.rng
        left = self.named(kind, scope, static=False)
        if left is None:
            return self.literal(kind)
        form = rng.randint(0, 9)
        if form == 0:
            return f"({left} {rng.choice('+-*')} {self.value(kind, scope, depth - 1)})"
        if form == 1:
            return f"({left} {rng.choice(['/', 'mod', 'rem'])} {rng.randint(1, 7) if kind.high >= 7 else 1})"
        if form == 2:
            return rng.choice([f"(abs {left})", f"(-{left})"]) if kind.sort == "signed" else f"({left} + 1)"
        if form == 3 and (kind.low, kind.high) == (INTEGER.low, INTEGER.high):
            arrays = [(n, k) for n, k, _ in scope.objects if k.sort in ("array", "open")]
            if arrays:
                name, array = rng.choice(arrays)
                return f"{name}'{rng.choice(['First', 'Last', 'Length'] if base(array.index) is INTEGER else ['Length'])}"
        if form == 4:
            return f"{kind.name}'{rng.choice(['First', 'Last'])}"
        if form == 5:
            others = [n for n, k, _ in scope.objects if k.sort in NUMBERS and n not in self.static]
            if others:
                return f"{base(kind).name} ({rng.choice(others)})"
        if form == 6:
            return f"({left} ** {rng.choice([str(rng.randint(0, 3)), self.named(NATURAL, scope, static=False) or '2'])})"
        if form == 7 and kind.sort == "signed":
            return f"{base(kind).name}'{rng.choice(['Succ', 'Pred'])} ({left})"
        if form == 8:
            places = [(n, k) for n, k, _ in scope.objects if k.sort == "enumeration" and n not in self.static]
            if places and base(kind) is INTEGER:
                name, place = rng.choice(places)
                return f"{base(place).name}'Pos ({name})"
        if form == 9:
            return f"{kind.name}'({left})"
        return f"(if {self.truth(scope, depth - 1)} then {left} else {self.value(kind, scope, depth - 1)})"

    def ranged(self, scope, over=None):
        """A range that an index or a loop goes over, the kind of its values, and what it gives to the scope."""
        rng = self.rng
        arrays = [(n, k, w) for n, k, w in scope.objects if k.sort in ("array", "open")]
        form = rng.randint(0, 3)
        if form <= 1 and arrays:
            name, array, written = rng.choice(arrays)
            return f"{name}'Range", array.index, [(f"{name} (%s)", array.item, written)]
        if form == 2:
            kind = self.part(DISCRETE)
            return kind.name, kind, []
        kind = rng.choice([INTEGER] + [k for k in self.scope.kinds if k.sort == "enumeration"])
        low, high = self.small(kind, 9)
        return f"{shown(kind, low)} .. {shown(kind, high)}", kind, []

    def truth(self, scope, depth):
        rng = self.rng
        if depth <= 0:
            return self.named(BOOLEAN, scope) or "True"
        form = rng.randint(0, 8)
        if form <= 2:
            kind = self.part(DISCRETE)
            left = self.named(kind, scope)
            if left is not None:
                return f"({left} {rng.choice(['=', '/=', '<', '<=', '>', '>='])} {self.value(kind, scope, depth - 1)})"
        if form == 3:
            return f"({self.truth(scope, depth - 1)} {rng.choice(['and', 'or', 'xor', 'and then', 'or else', '=', '/='])} {self.truth(scope, depth - 1)})"
        if form == 4:
            return f"(not {self.truth(scope, depth - 1)})"
        if form == 5:
            kind = self.part(DISCRETE)
            left = self.named(kind, scope, static=False)
            if left is not None:
                low, high = self.small(kind, 9)
                arrays = [n for n, k, _ in scope.objects if k.sort in ("array", "open") and base(k.index) is base(kind)]
                ranges = [kind.name, f"{shown(kind, low)} .. {shown(kind, high)}"] + [f"{n}'Range" for n in arrays[:1]]
                return f"({left} {rng.choice(['in', 'not in'])} {rng.choice(ranges)})"
        if form == 6:
            index = self.fresh("I")
            over, kind, given = self.ranged(scope)
            inner = scope.inner()
            inner.objects += [(index, kind, False)] + [(n % index, k, False) for n, k, _ in given]
            return f"(for {rng.choice(['all', 'some'])} {index} in {over} => {self.truth(inner, depth - 1)})"
        if form == 7:
            wholes = [(n, k) for n, k, _ in scope.objects if k.sort in ("record", "array")]
            if wholes:
                name, kind = rng.choice(wholes)
                right = self.named(kind, scope)
                if kind.sort == "array" and rng.random() < 0.5:
                    right = f"{kind.name}'{self.aggregate(kind, scope, depth - 1)}"
                return f"({name} {rng.choice(['=', '/='])} {right or name})"
        if form == 8:
            return f"(if {self.truth(scope, depth - 1)} then {self.truth(scope, depth - 1)})"
        return self.named(BOOLEAN, scope) or "False"

    # ---- statements

    def statements(self, scope, depth, indent, looped=False):
        out = []
        for _ in range(self.rng.randint(1, 4)):
            out += self.statement(scope, depth, indent, looped)
        return out

    def targets(self, scope):
        """Variables and parts of them."""
        found = []
        for name, kind, written in scope.objects:
            if written and kind.sort != "open":
                found.append((name, kind))
            if written:
                found += list(self.parts(name, kind, scope))
        return [(n, k) for n, k in found if k.sort != "open"]

    def statement(self, scope, depth, indent, looped):
        rng, pad = self.rng, " " * indent
        targets = self.targets(scope)
        form = rng.randint(0, 10 if depth > 0 else 3)
        if form <= 2 and targets:
            name, kind = rng.choice(targets)
            return [f"{pad}{name} := {self.value(kind, scope, 2)};"]
        if form == 3:
            return [pad + (self.procedure(scope, targets) or "null") + ";"]
        if form == 4:
            out = [f"{pad}if {self.truth(scope, 2)} then", *self.statements(scope, depth - 1, indent + 3, looped)]
            if rng.random() < 0.4:
                out += [f"{pad}elsif {self.truth(scope, 2)} then", *self.statements(scope, depth - 1, indent + 3, looped)]
            if rng.random() < 0.6:
                out += [f"{pad}else", *self.statements(scope, depth - 1, indent + 3, looped)]
            return out + [f"{pad}end if;"]
        if form in (5, 6):
            return self.choice(scope, depth, indent, looped) or [f"{pad}null;"]
        if form == 7:
            return self.loop(scope, depth, indent)
        if form == 8:
            out = [f"{pad}while {self.truth(scope, 2)} loop", *self.kept(scope, indent + 3)]
            return out + [*self.statements(scope, depth - 1, indent + 3, True), f"{pad}   exit when {self.truth(scope, 1)};", f"{pad}end loop;"]
        if form == 9 and looped:
            return [f"{pad}exit when {self.truth(scope, 1)};"]
        return [f"{pad}pragma {rng.choice(['Assert', 'Assume'])} ({self.truth(scope, 2)});"]

    def procedure(self, scope, targets):
        """A call of a procedure, of which no written argument overlaps another."""
        rng, found = self.rng, list(scope.procedures)
        rng.shuffle(found)
        for name, formals in found:
            actuals, written = [], set()
            for n, k, m in formals:
                if m == "in":
                    actuals.append(self.value(k, scope, 1))
                    continue
                same = [t for t, o in targets if fits(k, o) and re.match(r"\w+", t).group() not in written]
                if not same:
                    break
                actuals.append(rng.choice(same))
                written.add(re.match(r"\w+", actuals[-1]).group())
            else:
                if rng.random() < 0.25:
                    actuals = [f"{n} => {a}" for (n, _, _), a in zip(formals, actuals)]
                return name + (f" ({', '.join(actuals)})" if actuals else "")
        return None

    def choice(self, scope, depth, indent, looped):
        """A case statement."""
        rng, pad = self.rng, " " * indent
        found = [(n, k) for n, k, _ in scope.objects if k.sort in DISCRETE and n not in self.static and n not in self.unselected]
        if not found:
            return None
        name, kind = rng.choice(found)
        low, high = (kind.low, kind.high) if kind.high - kind.low < 9 else self.small(kind, 8)
        low, high = max(low, kind.low), min(high, kind.high)
        out, at = [f"{pad}case {name} is"], low
        whole = (low, high) == (kind.low, kind.high) and rng.random() < 0.5
        while at <= high:
            last = min(high, at + rng.randint(0, 2))
            if whole or rng.random() < 0.7:
                text = f"{shown(kind, at)} .. {shown(kind, last)}" if rng.random() < 0.5 else " | ".join(shown(kind, n) for n in range(at, last + 1))
                out += [f"{pad}   when {text} =>", *self.statements(scope, depth - 1, indent + 6, looped)]
            at = last + 1
        if not whole:
            out += [f"{pad}   when others =>", *self.statements(scope, depth - 1, indent + 6, looped)]
        return out + [f"{pad}end case;"]

    def kept(self, scope, indent):
        """Invariants and a variant of a loop."""
        rng, pad, out = self.rng, " " * indent, []
        inner = scope.inner()
        inner.objects += [(f"{n}'Loop_Entry", k, False) for n, k, w in scope.objects if w and re.fullmatch(r"\w+", n) and rng.random() < 0.5]
        for _ in range(rng.randint(0, 2)):
            out.append(f"{pad}pragma Loop_Invariant ({self.truth(inner, 2)});")
        variant = self.named(INTEGER, scope, static=False)
        if variant and rng.random() < 0.3:
            out.append(f"{pad}pragma Loop_Variant ({rng.choice(['Increases', 'Decreases'])} => {variant});")
        return out

    def loop(self, scope, depth, indent):
        rng, pad, index = self.rng, " " * indent, self.fresh("I")
        over, kind, given = self.ranged(scope)
        inner = scope.inner()
        inner.objects += [(n % index, k, w) for n, k, w in given] + [(index, kind, False)]
        if over != kind.name:
            self.unselected.add(index)
        out = [f"{pad}for {index} in {rng.choice(['', 'reverse '])}{over} loop", *self.kept(inner, indent + 3)]
        return out + [*self.statements(inner, depth - 1, indent + 3, True), f"{pad}end loop;"]

    # ---- declarations

    def profile(self):
        rng = self.rng
        formals = [(self.fresh("P"), rng.choice(self.scope.kinds), "in") for _ in range(rng.randint(0, 3))]
        if rng.random() < 0.45:
            return self.fresh("F"), formals, self.part()
        return self.fresh("Do"), [(n, k, rng.choice(["in", "out", "in out"]) if k.sort != "open" else rng.choice(["in", "in out"])) for n, k, _ in formals], None

    @staticmethod
    def heading(name, formals, result):
        text = "; ".join(f"{n} : {m + ' ' if m != 'in' else ''}{k.name}" for n, k, m in formals)
        text = f" ({text})" if formals else ""
        return f"procedure {name}{text}" if result is None else f"function {name}{text} return {result.name}"

    def aspects(self, name, formals, result, seen):
        rng, out = self.rng, []
        readable = seen.inner()
        readable.objects += [(n, k, False) for n, k, m in formals if m != "out"]
        if rng.random() < 0.4:
            out.append(f"Pre => {self.truth(readable, 2)}")
        if rng.random() < 0.4:
            post = seen.inner()
            post.objects += [(n, k, False) for n, k, m in formals]
            if result is not None:
                post.objects.append((f"{name}'Result", result, False))
            post.objects += [(f"{n}'Old", k, False) for n, k, m in formals if m == "in out"]
            post.objects += [(f"{n}'Old", k, False) for n, k, w in seen.objects if w and re.fullmatch(r"\w+", n)]
            out.append(f"Post => {self.truth(post, 2)}")
        globals_ = [n for n, _, w in seen.objects if w and re.fullmatch(r"\w+", n)]
        if rng.random() < 0.3 and globals_:
            rng.shuffle(globals_)
            cut = rng.randint(0, len(globals_))
            if result is not None or cut == 0:
                out.append(f"Global => {globals_[0]}" if rng.random() < 0.5 else "Global => null")
            elif cut == len(globals_):
                out.append(f"Global => (In_Out => ({', '.join(globals_)}))")
            else:
                out.append(f"Global => (Input => ({', '.join(globals_[:cut])}), {rng.choice(['Output', 'In_Out'])} => {globals_[cut]})")
        rng.shuffle(out)
        return f" with {', '.join(out)}" if out else ""

    def subprogram(self, where):
        """A subprogram that is declared in the specification, in its private part, or in the body alone."""
        rng = self.rng
        name, formals, result = self.profile()
        heading = self.heading(name, formals, result)
        aspects = self.aspects(name, formals, result, self.within() if where == "body" else self.scope)
        inner = self.within()
        inner.objects = [(n, k, w and result is None) for n, k, w in inner.objects]
        inner.objects += [(n, k, m != "in") for n, k, m in formals]
        locals_ = []
        for _ in range(rng.randint(0, 3)):
            kind, local = self.part(), self.fresh("L")
            constant = kind.sort in ("array", "record") and rng.random() < 0.3
            locals_.append(f"      {local} : {'constant ' if constant else ''}{kind.name} := {self.value(kind, inner, 1)};")
            inner.objects.append((local, kind, not constant))
        statements = self.statements(inner, 2, 6)
        if result is not None:
            form = rng.random()
            if form < 0.3:
                statements += [f"      if {self.truth(inner, 1)} then", f"         return {self.value(result, inner, 2)};", "      else", f"         return {self.value(result, inner, 1)};", "      end if;"]
            else:
                statements.append(f"      return {self.value(result, inner, 2)};")
        elif rng.random() < 0.1:
            statements.append("      return;")
        body = [f"   {heading} is", *locals_, "   begin", *statements, f"   end {name};", ""]
        if where == "body":
            body[0] = f"   {heading}{aspects} is"
        else:
            (self.spec if where == "spec" else self.private).append(f"   {heading}{aspects};")
        self.body += body
        seen = self.scope if where == "spec" else None
        if result is None:
            (seen.procedures if seen else self.hidden_procedures).append((name, formals))
        else:
            (seen.functions if seen else self.hidden_functions).append((name, result, formals))

    def object(self, private=False):
        rng, out = self.rng, self.private if private else self.spec
        kind, name = self.part(), self.fresh("G")
        form = rng.random()
        if form < 0.15 and not private:
            number = rng.randint(-50, 1000)
            out.append(f"   {name} : constant := {shown(INTEGER, number)};")
            self.scope.numbers.append((name, number))
            return
        if form < 0.45:
            out.append(f"   {name} : constant {kind.name} := {self.literal(kind)};")
            if kind.sort not in ("array", "record"):
                self.static.add(name)
            entry = (name, kind, False)
        else:
            value = f" := {self.literal(kind)}" if rng.random() < 0.5 else ""
            out.append(f"   {name} : {kind.name}{value};")
            entry = (name, kind, True)
        (self.hidden if private else self.scope.objects).append(entry)

    def make(self):
        rng = self.rng
        for _ in range(rng.randint(3, 7)):
            self.kind()
        for _ in range(rng.randint(2, 5)):
            self.object()
        has_private = rng.random() < 0.5
        for _ in range(rng.randint(0, 2) if has_private else 0):
            self.object(private=True)
        self.subprogram("spec")
        for _ in range(rng.randint(1, 4)):
            self.subprogram(rng.choice(["spec", "spec", "body", "private"] if has_private else ["spec", "spec", "body"]))

    def files(self, use):
        """The specification and the body of a package."""
        private = ["private", *self.private] if self.private else []
        low = self.name.lower()
        return {
            f"{low}.ads": "\n".join([f"{use}package {self.name} is", *self.spec, *private, f"end {self.name};"]) + "\n",
            f"{low}.adb": "\n".join([f"package body {self.name} is", *self.body, f"end {self.name};"]) + "\n",
        }


def program_of(seed):
    """The files of a program, by their names, in the order in which they are named."""
    rng = random.Random(seed)
    first = Maker(rng, "Core")
    first.make()
    second = Maker(rng, "Main", first)
    second.make()
    third = Maker(rng, "Top", second)
    third.subprogram("body")
    name = third.scope and re.match(r"   (procedure|function) (\w+)", third.body[0]).group(2)
    top = "\n".join(l[3:] for l in third.body).rstrip() + "\n"
    text = {**first.files(""), **second.files("with Core; use Core;\n")}
    text[f"{name.lower()}.adb"] = "with Core, Main;\nuse Core, Main;\n" + top
    for file in [f for f in text if not f.startswith("core")]:
        text[file] = re.sub(r"(?<![.\w])(?:T|Arr|Lit|G|F|Do)_C\d+\b(?! *=>)", lambda m: f"Core.{m.group()}" if rng.random() < 0.15 else m.group(), text[file])
    return text


WORDS = set("""abs and array begin body case constant else elsif end exit for function if in is loop mod not of or others out package pragma
private procedure range record rem return reverse subtype then type use when while with xor all some new null""".split())
OPERATORS = ["+", "-", "*", "/", "mod", "rem", "**", "and", "or", "xor", "and then", "or else", "=", "/=", "<", "<=", ">", ">=", "in", "not in"]
TOKEN = re.compile(r"\w+|:=|=>|\.\.|\*\*|/=|<=|>=|<>|[^\s\w]")


def swapped(text, rng, pattern, other):
    """The text with one thing that fits a pattern replaced."""
    places = list(re.finditer(pattern, text))
    if not places:
        return text
    place = rng.choice(places)
    return text[:place.start()] + other(place.group()) + text[place.end():]


def without_part(text, rng):
    """The text without one of the parts that commas or semicolons end inside parentheses, or with two of them in the other order."""
    places = [m for m in re.finditer(r"\((?:[^()]|\([^()]*\))*\)", text)]
    if not places:
        return text
    place = rng.choice(places)
    separator = "; " if ";" in place.group() else ", "
    parts = re.split(rf"{separator}(?![^(]*\))", place.group()[1:-1])
    at = rng.randrange(len(parts))
    form = rng.randint(0, 2)
    if form == 0 and len(parts) > 1:
        del parts[at]
    elif form == 1:
        parts.insert(rng.randrange(len(parts) + 1), parts[at])
    else:
        other = rng.randrange(len(parts))
        parts[at], parts[other] = parts[other], parts[at]
    return text[:place.start()] + "(" + separator.join(parts) + ")" + text[place.end():]


def changed(text, rng):
    """The program with one change."""
    text = dict(text)
    name = rng.choice(sorted(text))
    body, form = text[name], rng.random()
    identifiers = [m.group() for t in text.values() for m in re.finditer(r"[A-Za-z]\w*", t) if m.group().lower() not in WORDS]
    if form < 0.4:
        places = [m for m in re.finditer(r"[A-Za-z]\w*", body) if m.group().lower() not in WORDS]
        place = rng.choice(places)
        text[name] = body[:place.start()] + rng.choice(identifiers) + body[place.end():]
    elif form < 0.55:
        text[name] = swapped(body, rng, r"(?<= )(?:[-+*/=<>]|mod|rem|\*\*|and(?: then)?|or(?: else)?|xor|/=|<=|>=|(?:not )?in)(?= [\w(])", lambda _: rng.choice(OPERATORS))
    elif form < 0.65:
        text[name] = swapped(body, rng, r"\b\d+\b", lambda old: rng.choice([rng.choice(identifiers), str(rng.randint(0, 9)), str(int(old) + 1), str(2**31), "True"]))
    elif form < 0.78:
        text[name] = without_part(body, rng)
    elif form < 0.83:
        text[name] = swapped(body, rng, r": (?:in out |out |constant )?(?=[A-Z])", lambda _: rng.choice([": ", ": in out ", ": out ", ": constant "]))
    elif form < 0.93:
        lines = body.split("\n")
        at = rng.randrange(len(lines))
        line, how = lines[at], rng.randint(0, 2)
        if how != 1:
            del lines[at]
        if how != 0:
            lines.insert(rng.randrange(len(lines) + 1), line)
        text[name] = "\n".join(lines)
    else:
        place = rng.choice(list(TOKEN.finditer(body)))
        text[name] = body[:place.start()] + rng.choice(["", place.group() + " " + place.group()]) + body[place.end():]
    return text
