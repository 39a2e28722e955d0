"""The tree of GHDL's plain VHDL: what its netlists are printed as."""
from dataclasses import dataclass, field


@dataclass(frozen=True)
class Literal:
    text: str  # as it stands: '1', "01", 7

    def is_string(self):
        return self.text.startswith('"')


@dataclass(frozen=True)
class Name:
    text: str


@dataclass(frozen=True)
class Index:
    base: object
    at: object


@dataclass(frozen=True)
class Slice:
    base: object
    high: object
    low: object


@dataclass(frozen=True)
class Call:
    function: str
    arguments: tuple


@dataclass(frozen=True)
class Qualified:
    type: str
    value: object


@dataclass(frozen=True)
class Aggregate:
    parts: tuple  # pairs: None, "others", an int or (high, low), and the value


@dataclass(frozen=True)
class Unary:
    operator: str
    operand: object


@dataclass(frozen=True)
class Binary:
    operator: str
    left: object
    right: object


@dataclass(frozen=True)
class Shape:
    """A std_logic, or a vector from `high` down to `low`; or, with a name, a type of the process's own."""

    high: int = 0
    low: int = 0
    is_bit: bool = False
    name: str = ""

    def width(self):
        return 1 if self.is_bit else max(self.high - self.low + 1, 0)


@dataclass
class Declared:
    kind: str  # signal, constant, variable, or a port's mode
    name: str
    shape: Shape
    value: object = None


@dataclass
class Memory:
    name: str
    words: int
    shape: Shape


@dataclass
class Assign:
    target: object
    parts: list  # pairs of a value and its condition; the last condition is None
    place: str = ""
    is_variable: bool = False
    gate: str = ""  # what GHDL calls it: signal, uext ..
    source: str = ""  # the place that GHDL names right before it


@dataclass
class Select:
    selector: object
    target: object
    parts: list  # pairs of a value and its choices; no choice is others
    place: str = ""
    source: str = ""


@dataclass
class If:
    parts: list  # pairs of a condition (None: else) and statements


@dataclass(frozen=True)
class Event:
    """An edge as 'event and a level: from any other value to this one."""

    signal: object
    level: object


@dataclass
class Process:
    sensitive: list
    types: list
    variables: list
    body: list
    place: str = ""
    source: str = ""
    is_event: bool = False  # its edge is written by 'event


@dataclass
class Instance:
    label: str
    entity: str
    ports: list  # pairs of formal and actual
    place: str = ""
    generics: list = field(default_factory=list)


@dataclass
class Check:
    """An assertion, an assumption or a cover: it says nothing of values."""

    label: str
    place: str = ""


@dataclass
class Entity:
    name: str
    ports: list
    declared: list = field(default_factory=list)
    body: list = field(default_factory=list)
    is_box: bool = False  # GHDL prints no architecture of it


class Refused(Exception):
    """What the bridge can't write in the language, with the place in the design's own sources, if GHDL gave it."""

    def __init__(self, why, place=""):
        super().__init__(f"{place}: {why}" if place else why)
