"""The signals of a design in a scope of a dump."""
from dataclasses import dataclass

from .design import Signal
from .vcd import Refused


@dataclass(frozen=True)
class Joined:
    """A signal with the codes that have its value in a dump, from the left, and the width of each code's value."""

    signal: Signal
    codes: tuple
    width: int

    @property
    def name(self):
        return self.signal.name

    @property
    def is_position(self):
        """Whether the value is the position of an enumeration's literal: a net here, and several letters in the dump."""
        return self.width > 1 and not self.signal.indices and not self.signal.is_input

    def letters(self, values):
        """The letters under these values of the codes, of an integer the rightmost; none before each code has a value."""
        if not all(code in values for code in self.codes):
            return None
        text = "".join(extended(values[code], self.width) for code in self.codes)
        return text if self.is_position else text[-self.signal.width :]


def extended(letters, width):
    """A value in full width: on its left a dump leaves out what is 0, or x or z as the first letter is."""
    first = letters[:1].lower()
    return letters.rjust(width, first if first in ("x", "z") else "0")


def variables(dump):
    """The variables of each scope, each name with its codes; names in small letters."""
    found = {}
    for code, them in dump.variables.items():
        for it in them:
            found.setdefault(".".join(it.scopes).lower(), {}).setdefault(it.name.lower(), []).append((code, it))
    return found


def scope(dump, name, signals):
    """The variables of a scope that has some of the inputs among the signals; where it has none, those that have all are told."""
    inputs = {it.name for it in signals if it.is_input}
    scopes = variables(dump)
    found = scopes.get(name.lower(), {})
    if found and (not inputs or inputs & found.keys()):
        return found
    others = sorted(it for it, names in scopes.items() if inputs <= names.keys())
    why = f"the scope {name} has none of the inputs {', '.join(sorted(inputs))}" if found else f"there is no scope {name} with variables"
    raise Refused(f"{why}; " + (f"all inputs are in {', '.join(others)}" if others else f"there are {', '.join(sorted(scopes)) or 'none'}"))


def joined(signal, them):
    """A signal with what a scope has under its name: a variable of its width, a position, an integer, or a variable for each element."""
    code, first = them[0]
    is_cut = first.kind == "integer" and first.width > signal.width
    by_index = {it.bounds: code for code, it in them if it.width == 1}
    if first.width == signal.width or is_cut or not (signal.indices or signal.is_input):
        return Joined(signal, (code,), first.width)
    if all(str(index) in by_index for index in signal.indices):
        return Joined(signal, tuple(by_index[str(index)] for index in signal.indices), 1)
    raise Refused(f"{signal.name} has {signal.width} elements, and {first.width} in the dump")
