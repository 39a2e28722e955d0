"""Gives GHDL's gates the meaning that their sources have of values that are neither 0 nor 1.

GHDL prints `a when s = '0' else b` of a choice whose source takes b where its condition is true; a condition that is undefined is false, so the arms are
turned round: `b when s = '1' else a`. The rest is known by the facts of raw/sources.py at a gate's place:

- A net of a boolean is true where it is '1'. Its gates read operands that are '0' or '1'; `s = '0'`, which GHDL makes `not s`, is a comparison again.
- A net of an integer is a number: what is converted from elements that aren't all 0 or 1 is 0 (numeric_std, TO_INTEGER), at the conversion, at an integer's
  signal, at an operator and where it counts an element or a word.
- A comparison of numbers of numeric_std is false of undefined elements, `/=` true; one of vectors compares each element.
- A signal without a first value starts with that of its type.
"""
from dataclasses import replace

from .comparisons import ONE, RELATIONS, ZERO, Comparisons, is_literal, is_zero
from .known import known
from .latches import Latches
from .starts import SIGNALS, Starts
from .states import States
from .tree import Assign, Binary, Call, Entity, If, Index, Instance, Literal, Name, Process, Qualified, Select, Shape, Slice, Unary

LOGICAL = ("and", "or", "xor", "nand", "nor", "xnor")
DIVISIONS = {"division", "modulus", "remainder"}
EXTENSIONS = ("uext", "sext", "trunc")


class Meaning(Comparisons, Starts):
    """One entity, with the facts of its sources."""

    def __init__(self, scope, facts):
        self.scope, self.entity, self.facts = scope, scope.entity, facts
        self.files = {place.rsplit(":", 2)[0] for place in facts}
        self.wholes = {it.target.text: it for it in self.entity.body if isinstance(it, Assign) and isinstance(it.target, Name) and len(it.parts) == 1}
        self.chosen = {it.target.text: it.parts for it in self.entity.body if isinstance(it, Assign) and isinstance(it.target, Name) and len(it.parts) == 2}
        self.outputs = {it.name for it in self.entity.ports if it.kind == "out"}
        self.truths, self.numbers, self.before, self.notes = {}, {}, [], []

    def fact(self, it):
        """The words of the fact at a gate's place, without what is said of its value."""
        return [word for word in self.facts.get(it.source, "").split() if word not in ("asked", "counted")]

    def asking(self):
        """The nets that are std_logic values and stand as conditions by themselves."""
        named = {fact.split()[1] for fact in self.facts.values() if fact.startswith("signal ") and fact.endswith(" asked")}
        gates = {it.target.text for it in self.wholes.values() if it.gate not in SIGNALS and self.facts.get(it.source, "").endswith(" asked")}
        return gates | {name for name in named if name in self.scope.shapes}

    def is_of(self, it, word, *kinds):
        """Whether the source of a gate is this operator (or any), of one of these classes."""
        fact = self.fact(it)
        return len(fact) >= 3 and fact[0] == "operator" and (word is None or fact[1] in word) and fact[2] in kinds

    def value(self, name):
        """The value of a net that is assigned in one piece, or None."""
        return self.wholes[name].parts[0][0] if name in self.wholes else None

    def write(self):
        """The entity, each gate with its meaning; its names that the source has too; and what is to be said."""
        self.started()
        self.addresses, self.asked = self.counting(), self.asking()
        self.dropped = {it.selector.text: self.fact(it)[1:] for it in self.entity.body if isinstance(it, Select) and self.fact(it)[:1] == ["case"]}
        self.known = known(self.entity, self.is_sure)
        body = self.boxed() if self.entity.is_box else []
        for it in self.entity.body:
            self.before, self.scope.place = [], it.place
            written = self.statement(it)
            body += [*self.before, written]
        latches = Latches(self.scope, body, self.is_signal)
        states = States(self.scope, latches.written(), self.is_signal)
        body = states.written()
        self.states_started(states.registers)
        signals = {it.target.text for it in self.wholes.values() if self.is_signal(it)} | {it.name for it in self.entity.ports}
        return Entity(self.entity.name, self.entity.ports, self.entity.declared + self.scope.declared, body), signals, self.notes + latches.notes

    def is_signal(self, it):
        """Whether a gate is a signal or a port of the source, or else a variable; None where it is neither."""
        is_port = it.target.text in self.outputs
        return self.fact(it)[:1] != ["variable"] if it.gate in SIGNALS or is_port else None

    def class_of(self, it):
        """The class of a signal, a variable or an out port."""
        return self.of_port(it.target.text)[0] if it.target.text in self.outputs else (self.fact(it)[2:3] or [""])[0]

    # what is sure to be 0 or 1

    def is_sure(self, it):
        """Whether a gate gives 0 and 1 alone, whatever it reads."""
        if it.gate in SIGNALS or it.target.text in self.outputs:
            return self.class_of(it) in ("integer", "boolean")
        if self.facts.get(it.source, "").endswith(" counted"):
            return True
        value = it.parts[0][0]
        if isinstance(value, Unary) and value.operator == "not" and self.is_of(it, RELATIONS | {"not"}, "boolean", "logic", "enumeration", "bit"):
            return not self.is_of(it, {"not"}, "logic", "enumeration", "bit")
        if self.is_made(it) and isinstance(value, (Unary, Binary)):
            return True
        is_integer = self.is_count(it, value) and not self.is_of(it, DIVISIONS, "integer")
        return is_integer or self.is_of(it, LOGICAL, "boolean") or self.is_conversion(it)

    def is_conversion(self, it):
        return self.fact(it) == ["call", "to_integer"] and it.gate in EXTENSIONS

    def is_made(self, it):
        """Whether a logical gate has no operator in the source: it chooses what is written, at a place that isn't static or under a condition."""
        return it.source.rsplit(":", 2)[0] in self.files and self.fact(it)[:1] in ([], ["if"], ["forgotten"]) and self.scope.is_bit(it.target)

    def is_count(self, it, value):
        """Whether a gate computes with integers: an operator's, or of a place that isn't static."""
        is_arithmetic = it.gate in EXTENSIONS or isinstance(value, (Call, Unary)) or isinstance(value, Binary) and value.operator != "&"
        return is_arithmetic and (self.is_of(it, None, "integer") or self.fact(it) == ["index"])

    def counting(self):
        """The nets that are elements of a place that isn't static, or such a place."""
        found = set()
        for it in self.entity.body:
            match it:
                case Select() if self.fact(it) == ["index"]:
                    found |= {it.selector.text} if isinstance(it.selector, Name) else set()
                case Assign(parts=[(_, Binary(operator="=", left=Name(text=name))), _]) if self.fact(it) == ["index"]:
                    found.add(name)
                case Assign(parts=[(Unary(operator="not", operand=Name(text=name)), None)]) if self.is_made(it):
                    found |= {name} if name in self.wholes and self.wholes[name].source == it.source else set()
        return found

    # nets as 0 and 1

    def assign(self, target, *parts):
        self.before.append(Assign(target, list(parts), self.scope.place))

    def truth(self, it):
        """A boolean as '0' or '1'."""
        if not isinstance(it, Name) or it.text in self.known:
            return it
        if it.text not in self.truths:
            self.truths[it.text] = self.scope.fresh(Shape(is_bit=True))
            self.assign(self.truths[it.text], (ONE, Binary("=", it, ONE)), (ZERO, None))
        return self.truths[it.text]

    def number(self, it):
        """An integer's elements as 0 and 1, all of them 0 where one is neither; within a value each name's."""
        match it:
            case Name():
                return it if it.text in self.known else self.counted(it)
            case Slice() | Index() if isinstance(it.base, Name):
                return replace(it, base=self.number(it.base))
            case Call():
                return replace(it, arguments=(self.number(it.arguments[0]), *map(self.number, it.arguments[1:])))
            case Unary():
                return replace(it, operand=self.number(it.operand))
            case Binary():
                return replace(it, left=self.number(it.left), right=self.number(it.right))
        return it

    def counted(self, it):
        if it.text not in self.numbers:
            shape = self.scope.shape(it.text)
            found = self.numbers[it.text] = self.scope.fresh(Shape(is_bit=True) if shape.is_bit else Shape(shape.width() - 1, 0))
            if shape.is_bit:
                self.assign(found, (ONE, Binary("=", it, ONE)), (ONE, Binary("=", it, Literal("'H'"))), (ZERO, None))
            else:
                zeros, own = Literal(f'"{"0" * shape.width()}"'), Call("unsigned", (it,))
                value = Call("std_logic_vector", (Binary("+", own, Qualified("unsigned", zeros)),))
                self.assign(found, (value, Binary("=", own, own)), (zeros, None))
        return self.numbers[it.text]

    # statements

    def statement(self, it):
        match it:
            case Assign(parts=[(value, Binary(operator="=", left=left, right=right)), (other, None)]) if is_zero(right) and not self.is_comparison(it):
                return replace(it, parts=[(other, Binary("=", self.selecting(it, left), ONE)), (value, None)])
            case Assign(parts=[(one, Binary() as condition), (other, None)]) if self.fact(it) in (["call", "minimum"], ["call", "maximum"]):
                return self.extreme(it, one, condition, other)
            case Assign(parts=[(Literal(), Binary() as condition), (Literal(), None)]):
                return self.comparison(it, condition)
            case Assign(parts=[(value, None)]) if it.target.text in self.dropped:
                return self.plain(it, self.with_dropped(value, self.dropped[it.target.text]))
            case Assign(parts=[(value, None)]):
                return self.gate(it, value)
            case Select():
                return replace(it, selector=self.selecting(it, it.selector))
            case Process(types=[memory, *_]):
                return self.memory(it)
            case Instance() if self.is_box(it):
                self.notes.append((it.place, f"nothing is in the black box {it.entity}"))
            case Process():
                return replace(it, is_event=self.fact(it) == ["if", "event"])
        return it

    def selecting(self, it, name):
        """What selects: a place that isn't static is a number, and so is a std_logic that is a condition by itself."""
        if not isinstance(name, Name):
            return name
        is_place = (self.fact(it) == ["index"] or name.text in self.addresses) and not isinstance(self.value(name.text), (Index, Slice))
        return self.number(name) if is_place or name.text in self.asked else name

    def gate(self, it, value):
        """An assignment of one value."""
        if self.facts.get(it.source, "").endswith(" counted") and it.gate not in SIGNALS and not is_literal(value):
            kept = self.scope.fresh(self.scope.shape(it.target.text))
            self.assign(kept, (value, None))
            return self.plain(it, self.number(kept))
        if it.gate in SIGNALS or it.target.text in self.outputs:
            is_truth = self.class_of(it) == "boolean" and not (isinstance(value, Name) and value.text in self.asked)
            return self.plain(it, self.truth(value) if is_truth else self.number(value)) if self.is_sure(it) else it
        if self.fact(it) in (["call", "find_leftmost"], ["call", "find_rightmost"]) and it.gate == "sext":
            return self.place(it, value)
        if self.is_conversion(it) or self.is_count(it, value):
            return self.plain(it, self.number(value))
        match value:
            case Call(arguments=(Binary(operator="-", left=left, right=right),)) if self.fact(it)[-1:] == ["turned"]:
                return self.plain(it, replace(value, arguments=(Binary("-", right, left),)))
            case Call(arguments=(Binary(operator="/" | "mod" | "rem", left=left, right=right),)) if self.is_of(it, DIVISIONS, "number"):
                undefined = Literal(f'"{"X" * self.scope.width(it.target)}"')
                sides = [side for side in (left, right) if not is_literal(side)]
                return replace(it, parts=[*((undefined, Binary("/=", side, side)) for side in sides), (value, None)])
            case Unary(operator="not", operand=operand) if self.is_of(it, {"equality"}, "logic", "enumeration", "bit"):
                return self.choice(it, operand, ZERO, ONE, ZERO)
            case Unary(operator="not", operand=operand) if self.is_of(it, RELATIONS | {"not"}, "boolean", "logic", "enumeration", "bit"):
                return it if self.is_of(it, {"not"}, "logic", "enumeration", "bit") else self.choice(it, operand, ONE, ZERO, ONE)
            case Binary(operator=operator, left=left, right=right) if operator in LOGICAL and (self.is_of(it, LOGICAL, "boolean") or self.is_made(it)):
                return self.plain(it, Binary(operator, self.true(it, left), self.true(it, right)))
            case Unary(operator="not", operand=Name() as operand) if self.is_made(it) and not isinstance(self.value(operand.text), (Index, Slice)):
                is_number = operand.text in self.addresses or operand.text in self.asked
                return self.plain(it, Unary("not", self.number(operand) if is_number else self.truth(operand)))
            case Index(base=Name()) | Slice(base=Name()) if it.target.text in self.addresses:
                return self.plain(it, self.number(value))
        return it

    def place(self, it, value):
        """What find_leftmost and its like give: -1, all elements 1, or a place. GHDL takes the leftmost element of each for a sign."""
        width, found = self.scope.width(it.target), value.arguments[0].arguments[0].arguments[0]
        own = self.scope.width(found)
        place = Binary("&", Literal(f'"{"0" * (width - own)}"'), found)
        return replace(it, parts=[(Literal(f'"{"1" * width}"'), Binary("=", found, Literal(f'"{"1" * own}"'))), (place, None)])

    def true(self, it, operand):
        """A boolean operand of a gate that GHDL made or the source has."""
        is_asked = isinstance(operand, Name) and operand.text in self.asked
        return self.number(operand) if is_asked else self.truth(operand)

    def plain(self, it, value):
        return replace(it, parts=[(value, None)])

    def choice(self, it, operand, literal, value, other):
        return replace(it, parts=[(value, Binary("=", operand, literal)), (other, None)])

    def memory(self, it):
        """A memory's process: each place of a word is a number, and the words start with the first values of their type."""
        return replace(it, body=[self.access(part) for part in it.body], variables=[self.first_words(it.variables[0], it.types[0]), *it.variables[1:]])

    def access(self, it):
        if isinstance(it, If):
            return If([(condition, [self.access(part) for part in body]) for condition, body in it.parts])
        if it.is_variable:
            return replace(it, target=replace(it.target, at=self.number(it.target.at)))
        value = it.parts[0][0]
        return self.plain(it, replace(value, at=self.number(value.at)))

    def first_words(self, variable, type):
        starts = {fact.split()[3] for fact in self.facts.values() if fact.startswith(f"signal {variable.name} ")} - {"-"}
        width = type.shape.width()
        if variable.value is not None or len(starts) != 1:
            return variable
        text = starts.pop()
        word = text[:width] if "*" not in text else text[0] * width
        return replace(variable, value=Literal(f'"{word}"')) if len(word) == width else variable


def meant(scope, facts):
    """The scope's entity, its gates as their sources mean them, the names that the source has too, and what is to be said of it."""
    return Meaning(scope, facts).write()
