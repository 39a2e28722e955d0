"""Latches, and registers that GHDL leaves as such: a choice that leads back to its own target becomes a process that leaves the target alone there.

GHDL prints a latch as a choice among a value and what it is itself, by way of copies, slices and joined parts. Written so it is a circle of assignments
(fault 8, Loop); as an if without an else it is the latch that the source has (fault 7), at the same place. Where all that chooses is an edge with what
enables it (GHDL makes no register of a part of a signal whose place isn't static), the process is that register.
"""
from dataclasses import replace

from .loops import names_in
from .tree import Assign, Binary, Call, If, Index, Instance, Literal, Name, Process, Select, Slice

EDGES = ("rising_edge", "falling_edge")


def reads(it):
    """The names that a statement reads."""
    match it:
        case Assign():
            return names_of(it.target, True).union(*(names_of(part) for pair in it.parts for part in pair))
        case Select():
            return names_of(it.selector).union(*(names_of(value) for value, _ in it.parts))
        case If():
            return set().union(*(names_of(condition).union(*map(reads, body)) for condition, body in it.parts))
        case Process():
            return set().union(*(reads(part) for part in it.body), *map(names_of, it.sensitive))
        case Instance():
            return set().union(*(names_of(actual) for _, actual in it.ports))
    return set()


def names_of(it, is_target=False):
    """The names in a value; of a target those that tell its place."""
    if it is None:
        return set()
    if isinstance(it, (Index, Slice)):
        places = [it.at] if isinstance(it, Index) else [it.high, it.low]
        return (set() if is_target else names_of(it.base)).union(*map(names_of, places))
    if isinstance(it, Call):
        return set().union(*map(names_of, it.arguments))
    if isinstance(it, Binary):
        return names_of(it.left) | names_of(it.right)
    return set() if is_target else names_in(it)


class Latches:
    """The statements of an entity; `is_signal` tells of a gate whether it is a signal or port of the source, or a variable (False); None else."""

    def __init__(self, scope, body, is_signal):
        self.scope, self.body, self.notes = scope, body, []
        self.copies, self.choices = {}, {}
        for it in body:
            match it:
                case Assign(target=Name(text=name), parts=[(value, None)]):
                    self.copies[name] = value
                case Assign(target=Name(text=name)) | Select(target=Name(text=name)):
                    self.choices[name] = it
        self.signals = {}
        for it in body:
            for name, _ in self.elements(it.target, ()) if isinstance(it, Assign) and isinstance(it.target, Name) and is_signal(it) is not None else ():
                self.signals[name] = self.signals.get(name, it.target.text) if is_signal(it) else None

    def written(self):
        """The statements, latches and registers as processes."""
        return self.without_edges([self.statement(it) for it in self.body])

    def without_edges(self, body):
        """The statements but those that give the value of an edge to nothing."""
        edges = {name for name in (*self.choices, *self.copies) if self.edge(Name(name))}
        is_changed = bool(edges)
        while is_changed:
            read = set().union(*map(reads, body))
            left = [it for it in body if not (isinstance(it, Assign) and isinstance(it.target, Name) and it.target.text in edges - read)]
            body, is_changed = left, len(left) < len(body)
        return body

    def statement(self, it):
        if not isinstance(it, (Assign, Select)) or not isinstance(it.target, Name) or it.target.text not in self.choices:
            return it
        target = it.target
        if not self.signals.get(target.text) or not self.holds(target, target, ()):
            return it
        branches = self.branches(target, target)
        register = self.register(branches)
        if register:
            return Process(register[1], [], [], [register[0]], it.place)
        self.notes.append((it.place, f"a latch: {self.signals[target.text]} keeps its value where no branch assigns it"))
        return Process([Name("all")], [], [], branches, it.place)

    # what a value is, element by element

    def elements(self, it, seen):
        """A value's elements, the leftmost first, each the name of a signal that isn't a copy and its place, or None."""
        unknown = lambda: [(None, None)] * self.scope.width(it)
        match it:
            case Name(text=name):
                if name in seen:
                    return unknown()
                if name in self.copies:
                    return self.elements(self.copies[name], (*seen, name))
                shape = self.scope.shape(name)
                return [(name, 0)] if shape.is_bit else [(name, at) for at in range(shape.high, shape.low - 1, -1)]
            case Index(base=Name() as base, at=Literal(text=text)):
                return self.cut(base, int(text), int(text), seen)
            case Slice(base=Name() as base, high=Literal(text=high), low=Literal(text=low)):
                return self.cut(base, int(high), int(low), seen)
            case Binary(operator="&"):
                return self.elements(it.left, seen) + self.elements(it.right, seen)
        return unknown()

    def cut(self, base, high, low, seen):
        top = self.scope.shape(base.text).high
        return self.elements(base, seen)[top - high : top - low + 1]

    def is_same(self, value, target):
        return self.elements(value, ()) == self.elements(target, ())

    def choice(self, value):
        """The choice that a value is a part of, with the values of its parts there; or None."""
        elements = self.elements(value, ())
        name, high = elements[0] if elements else (None, None)
        low = elements[-1][1] if elements else None
        if name not in self.choices or low is None or elements != [(name, at) for at in range(high, low - 1, -1)]:
            return None
        shape = self.scope.shape(name)
        if len(elements) == shape.width():
            return self.choices[name]
        return replace(self.choices[name], parts=[(self.part(part, high - shape.low, low - shape.low), choice) for part, choice in self.choices[name].parts])

    def part(self, it, high, low):
        """A part of a value, by its places from the right: of one that isn't only joined or cut a copy of its own."""
        match it:
            case Literal(text=text):
                text = text[1:-1][len(text) - 3 - high : len(text) - 2 - low]
                return Literal(f"'{text}'" if high == low else f'"{text}"')
            case Name(text=name) if not self.scope.shape(name).is_bit:
                base, first = it, self.scope.shape(name).low
            case Slice(base=Name() as base, low=Literal(text=text)):
                first = int(text)
            case _:
                return it
        if high == low:
            return Index(base, Literal(str(first + low)))
        return Slice(base, Literal(str(first + high)), Literal(str(first + low)))

    def holds(self, value, target, seen):
        """Whether a choice leads to the target by its values, and theirs."""
        it = self.choice(value)
        if it is None or it.target.text in seen:
            return False
        if any(self.scope.width(part) != self.scope.width(value) for part, _ in it.parts):
            return False
        return any(self.is_same(part, target) or self.holds(part, target, (*seen, it.target.text)) for part, _ in it.parts)

    # as branches

    def assigned(self, value, target):
        """Statements that give the target this value."""
        if self.is_same(value, target):
            return []
        return self.branches(value, target) if self.holds(value, target, (target.text,)) else [Assign(target, [(value, None)])]

    def branches(self, value, target):
        it = self.choice(value)
        parts = [(self.condition(it, choice), self.assigned(part, target)) for part, choice in it.parts]
        return [If(parts[:-1] if not parts[-1][1] and parts[-1][0] is None else parts)]

    def condition(self, it, choice):
        if isinstance(it, Assign):
            return choice
        found = None
        for value in choice or ():
            equal = Binary("=", it.selector, value)
            found = equal if found is None else Binary("or", found, equal)
        return found

    # edges among conditions

    def terms(self, it):
        """What a net is the and of."""
        match self.copies.get(it.text) if isinstance(it, Name) else None:
            case Binary(operator="and", left=left, right=right):
                return self.terms(left) + self.terms(right)
        return [it]

    def is_edge(self, it):
        """The edge that a net is the value of, or None."""
        match self.choices.get(it.text) if isinstance(it, Name) else None:
            case Assign(parts=[(Literal(text="'1'"), Call() as call), (Literal(text="'0'"), None)]) if call.function in EDGES:
                return call
        return None

    def edge(self, it):
        """The edge that is needed for a net to be '1', or None."""
        return next((call for call in map(self.is_edge, self.terms(it)) if call), None)

    def needs(self, condition):
        """The edge that a condition needs, or None."""
        match condition:
            case Binary(operator="=", left=Name() as name, right=Literal(text="'1'")):
                return self.edge(name)
        return None

    def edges(self, branches):
        """The edges without which none of these branches assigns; None for one that assigns without."""
        found = set()
        for it in branches:
            if isinstance(it, Assign):
                found.add(None)
            else:
                for condition, body in it.parts:
                    found |= {self.needs(condition)} if self.needs(condition) else self.edges(body)
        return found

    def register(self, branches):
        """The if of a register that these branches are, and what it wakes by; or None."""
        edges = self.edges(branches)
        if len(edges) == 1 and None not in edges:
            edge = edges.pop()
            return If([(edge, self.enabled(branches, edge))]), [edge.arguments[0]]
        match branches:
            case [If(parts=[(condition, [Assign(parts=[(Literal(), None)]) as reset]), (None, others)])] if condition:
                edges = self.edges(others)
                if len(edges) == 1 and None not in edges:
                    edge = edges.pop()
                    return If([(condition, [reset]), (edge, self.enabled(others, edge))]), [condition.left, edge.arguments[0]]
        return None

    def enabled(self, branches, edge):
        """The branches at an edge: what enables them besides."""
        found = []
        for it in branches:
            if isinstance(it, Assign):
                found.append(it)
                continue
            parts = [(self.rest(condition, edge), self.enabled(body, edge)) for condition, body in it.parts]
            found += parts[0][1] if parts[0][0] is None else [If(until_always(parts))]
        return found

    def rest(self, condition, edge):
        """A condition without the edge; None where nothing is left of it."""
        if self.needs(condition) != edge:
            return condition
        others = [Binary("=", it, condition.right) for it in self.terms(condition.left) if self.is_edge(it) != edge]
        found = others[0] if others else None
        for it in others[1:]:
            found = Binary("and", found, it)
        return found


def until_always(parts):
    """The parts of an if up to the first that has no condition."""
    last = next((at for at, (condition, _) in enumerate(parts) if condition is None), len(parts))
    return parts[: last + 1]
