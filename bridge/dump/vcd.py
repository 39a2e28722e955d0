"""Reads value change dumps (IEEE 1364-2005, clause 18), also those of the nine values of VHDL, as GHDL writes them."""
import itertools
import operator
import re
from dataclasses import dataclass

FEMTOSECONDS = {"s": 10**15, "ms": 10**12, "us": 10**9, "ns": 10**6, "ps": 10**3, "fs": 1}
LETTERS = frozenset("01xXzZuUwWlLhH-")


class Refused(Exception):
    """What isn't read of a dump, or can't be made of it."""


@dataclass(frozen=True)
class Variable:
    """A name of a dump: the scopes round it, its kind, its bounds as they are written (`7:0`, `3`, or nothing), and its width."""

    scopes: tuple
    kind: str
    name: str
    bounds: str
    width: int


class Dump:
    """A dump whose head is read: the fs of its unit of time, who wrote it, and the variables of each code."""

    def __init__(self, lines):
        self.tokens = (token for line in lines for token in line.split())
        self.unit, self.version, self.variables = FEMTOSECONDS["ns"], "", {}
        scopes = []
        for keyword in self.tokens:
            if keyword[0] != "$":
                break
            words = list(itertools.takewhile(lambda it: it != "$end", self.tokens))
            if keyword == "$enddefinitions":
                return
            self.declare(keyword, words, scopes)
        raise Refused("it doesn't begin as a value change dump does")

    def declare(self, keyword, words, scopes):
        match keyword, words:
            case "$timescale", _:
                self.unit = femtoseconds("".join(words))
            case "$version", _:
                self.version = " ".join(words)
            case "$scope", [_, *name]:
                scopes.append(" ".join(name))
            case "$upscope", _:
                scopes[-1:] = []
            case "$var", [kind, width, code, *reference] if width.isdigit() and reference:
                name, bounds = re.fullmatch(r"(.*?) *(?:\[([-\d:]+)\])?", " ".join(reference)).groups("")
                self.variables.setdefault(code, []).append(Variable(tuple(scopes), kind, name, bounds, int(width)))
            case "$var", _:
                raise Refused(f"`{keyword} {' '.join(words)}` isn't read")

    def changes(self):
        """Each change in order: the time in units of the dump, the code, and the value's letters as they are written."""
        time = 0
        for token in self.tokens:
            match token[0]:
                case "#":
                    time = later(time, token)
                case "b" | "B":
                    yield time, next(self.tokens, ""), token[1:]
                case "r" | "R" | "s" | "S":
                    next(self.tokens, "")
                case letter if letter in LETTERS:
                    yield time, token[1:], letter
                case _ if token == "$comment":
                    any(it == "$end" for it in self.tokens)
                case letter if letter != "$":
                    raise Refused(f"`{token}` is no change of a value")

    def moments(self):
        """The times that have changes, in order, each with the letters of the codes that change."""
        for time, found in itertools.groupby(self.changes(), key=operator.itemgetter(0)):
            yield time, {code: letters for _, code, letters in found}


def femtoseconds(text):
    """The fs of a time such as `10ps` or `1 ns`."""
    it = re.fullmatch(r"(10{0,2})? *([munpf]?s)", text)
    if not it:
        raise Refused(f"`{text}` is no unit of time, as 1ns, 10ps or 100us are")
    return int(it[1] or 1) * FEMTOSECONDS[it[2]]


def later(time, token):
    """The time that a token such as `#10` gives; none is before the last one."""
    if not token[1:].isdigit() or int(token[1:]) < time:
        raise Refused(f"`{token}` is no time behind #{time}")
    return int(token[1:])


def moments(lines):
    """The times of a dump in ns, in order, each with the scopes, the name without bounds and the letters of what changes."""
    dump = Dump(lines)
    for time, changed in dump.moments():
        named = [(it.scopes, it.name, letters) for code, letters in changed.items() for it in dump.variables.get(code, ())]
        yield time * dump.unit // FEMTOSECONDS["ns"], named
