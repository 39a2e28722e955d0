"""Variables and signals that keep their value from edge to edge where GHDL makes no register of them.

GHDL prints such a one as a choice, at an edge, among what it becomes and what it is, through any number of gates; what else the process loads at the edge
may read what a variable becomes. It is written as a register, and the gates that hang on the edge twice: as they are without it, and as they are at it,
for these registers.
"""
from dataclasses import fields, is_dataclass, replace

from .latches import EDGES, names_of, reads
from .loops import looped
from .tree import Assign, Binary, Call, If, Instance, Literal, Name, Process, Select


def renamed(it, names):
    """A value or a statement with other names, but for what it assigns."""
    if isinstance(it, Name):
        return names.get(it.text, it)
    if isinstance(it, (list, tuple)):
        return type(it)(renamed(part, names) for part in it)
    if not is_dataclass(it):
        return it
    return replace(it, **{part.name: renamed(getattr(it, part.name), names) for part in fields(it) if part.name != "target"})


class States:
    """The statements of an entity; `is_signal` tells of a gate whether it is a signal or a variable of the source; None where it is neither."""

    def __init__(self, scope, body, is_signal):
        self.scope, self.body, self.registers = scope, body, []
        self.edges = {}
        for it in body:
            match it:
                case Assign(target=Name(text=name), parts=[(Literal(text="'1'"), Call() as call), (Literal(text="'0'"), None)]) if call.function in EDGES:
                    self.edges[name] = call
        loops = looped(body, {}) if self.edges else set()
        self.kept = [it for it in body if isinstance(it, Assign) and isinstance(it.target, Name) and it.target.text in loops and is_signal(it) is not None]

    def written(self):
        """The statements, with a register for each of these; as they were where that can't be."""
        edges = [it for at, it in enumerate(self.edges.values()) if it not in list(self.edges.values())[:at]]
        if not self.kept or len(edges) != 1:
            return self.body
        self.edge, hanging = edges[0], self.hanging()
        if not all(self.is_registered(it, hanging) for it in self.body):
            return self.body
        self.names = {name: self.scope.fresh(self.scope.shape(name)) for name in sorted(hanging)}
        body = self.without_idle([part for it in self.body for part in self.statement(it)])
        if looped(body, {}) & hanging:
            return self.body
        self.registers = self.kept
        return body

    def is_kept(self, it):
        return any(it is part for part in self.kept)

    def hanging(self):
        """The names of the gates that hang on the edge."""
        found, is_changed = set(self.edges), True
        while is_changed:
            gates = [it for it in self.body if isinstance(it, (Assign, Select)) and isinstance(it.target, Name) and not self.is_kept(it)]
            more = {it.target.text for it in gates if reads(it) & found}
            is_changed = not more <= found
            found |= more
        return found

    def is_registered(self, it, hanging):
        """Whether a statement that reads such a gate is one too, or a register of the edge."""
        if isinstance(it, (Instance, Process)) and reads(it) & hanging:
            return isinstance(it, Process) and not it.types and all(isinstance(part, If) and self.is_loaded(part, hanging) for part in it.body)
        return True

    def is_loaded(self, it, hanging):
        """Whether what a register asks before its edge isn't such a gate, and the edge is this one."""
        for condition, body in it.parts:
            edge = condition.left if isinstance(condition, Binary) and isinstance(condition.left, Call) else condition
            if edge == self.edge:
                return True
            if names_of(condition) & hanging or any(reads(part) & hanging for part in body):
                return False
        return False

    def statement(self, it):
        if self.is_kept(it):
            return [Process([self.edge.arguments[0]], [], [], [If([(self.edge, [Assign(it.target, renamed(it.parts, self.names))])])], it.place)]
        if isinstance(it, Process):
            return [replace(it, body=renamed(it.body, self.names))]
        if not isinstance(it, (Assign, Select)) or not isinstance(it.target, Name) or it.target.text not in self.names:
            return [it]
        name = self.names[it.target.text]
        if it.target.text in self.edges:
            return [replace(it, parts=[(Literal("'0'"), None)]), replace(it, target=name, parts=[(Literal("'1'"), None)])]
        return [it, replace(renamed(it, self.names), target=name)]

    def without_idle(self, body):
        """The statements without those of the second gates that nothing reads."""
        own, is_changed = {it.text for it in self.names.values()}, True
        while is_changed:
            read = set().union(*map(reads, body))
            left = [it for it in body if not (isinstance(it, (Assign, Select)) and isinstance(it.target, Name) and it.target.text in own - read)]
            body, is_changed = left, len(left) < len(body)
        self.scope.declared = [it for it in self.scope.declared if it.name not in own or it.name in read]
        return body
