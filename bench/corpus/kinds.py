"""The kinds of a design's ports: how a value of so many elements is written in a testbench of the source, and how an output's elements are got back."""
from beside import TYPES, drawn, ports_of
from raw import ghdl
from raw.sources import UNREADABLE, Sources

# what random integers stay within, so that sums and products don't overflow
SMALL = 99


class Elements:
    """std_logic, bit and their vectors."""

    def __init__(self, word, width, is_bit):
        self.width, self.is_bit, self.is_nine = width, is_bit, not word.startswith("bit")

    def literal(self, bits):
        return f"'{bits}'" if self.is_bit else f'"{bits}"'

    def image(self, it):
        convert = ("" if self.is_nine else "to_stdulogic") if self.is_bit else "std_logic_vector" if self.is_nine else "to_stdlogicvector"
        return f"{convert}({it})" if convert else it

    def drawn(self, r, is_nine):
        return drawn(r, self.width, is_nine and self.is_nine)


class Scalar:
    """A boolean, an integer or an enumeration: its values have numbers."""

    is_nine = False

    def __init__(self, name, low, high):
        self.name, self.low, self.high = name, low, high
        self.width = max(high.bit_length(), (-low - 1).bit_length() if low < 0 else 1) + (low < 0)
        self.is_bit = name not in ("", "integer") and high < 2

    def literal(self, bits):
        number = int(bits, 2) - (1 << self.width if self.low < 0 and bits[0] == "1" else 0)
        return f"({number})" if self.name == "integer" else f"{self.name}'val({number})"

    def image(self, it):
        number = it if self.name == "integer" else f"{self.name}'pos({it})"
        elements = f"{'to_signed' if self.low < 0 else 'to_unsigned'}({number}, {self.width})"
        return f"{elements}(0)" if self.is_bit else f"std_logic_vector({elements})"

    def drawn(self, r, is_nine):
        number = r.randint(max(self.low, -SMALL), min(self.high, SMALL)) if self.low <= SMALL else self.low
        return f"{number % (1 << self.width):0{self.width}b}"


class Record:
    """A record; its first field stands on the right."""

    is_bit = False

    def __init__(self, fields):
        self.fields = fields
        self.width = sum(kind.width for _, kind in fields)
        self.is_nine = any(kind.is_nine for _, kind in fields)

    def literal(self, bits):
        parts = []
        for name, kind in self.fields:
            bits, own = bits[: len(bits) - kind.width], bits[len(bits) - kind.width :]
            parts.append(f"{name} => {kind.literal(own)}")
        return f"({', '.join(parts)})"

    def image(self, it):
        joined = " & ".join(kind.image(f"{it}.{name}") for name, kind in reversed(self.fields))
        return f"std_logic_vector'({joined})" if len(self.fields) > 1 else joined

    def drawn(self, r, is_nine):
        return "".join(kind.drawn(r, is_nine) for _, kind in reversed(self.fields))


class Kinds:
    """The kinds of types in GHDL's tree of the sources; None of one that isn't known here."""

    def __init__(self, text):
        self.sources = Sources(text)

    def of_ports(self, top):
        for it in self.sources.root.iter():
            if it.get("kind") == "entity_declaration" and it.get("identifier") == top:
                return {part.get("identifier"): self.kind(self.sources.child(part, "type")) for part in self.sources.children(it, "port_chain")}
        return {}

    def kind(self, type):
        match self.sources.kind(type):
            case "logic" | "bit" as word:
                return Elements(word, 1, True)
            case "boolean":
                return Scalar("boolean", 0, 1)
            case "enumeration":
                count = len(self.sources.children(self.sources.base(type), "enumeration_literal_list"))
                return Scalar(self.sources.name(type), 0, count - 1)
            case "integer":
                return self.integer(type)
            case "number" | "vector":
                return self.vector(type)
            case "record":
                fields = self.sources.children(self.sources.base(type), "elements_declaration_list")
                found = [(it.get("identifier"), self.kind(self.sources.child(it, "type"))) for it in fields]
                return None if any(kind is None for _, kind in found) else Record(found)
        return None

    def integer(self, type):
        most = (1 << 31) - 1
        if type.get("kind") != "integer_subtype_definition":
            return Scalar("integer", -most - 1, most) if self.sources.name(type) == "integer" else None
        left, right = self.sources.limits(type)
        right = most if right is None and left in (0, 1) else right
        return None if left is None or right is None else Scalar("integer", min(left, right), max(left, right))

    def vector(self, type):
        element = self.sources.kind(self.sources.child(self.sources.elements(type), "element_subtype"))
        parts = self.sources.children(type, "index_subtype_list")
        left, right = self.sources.limits(parts[0]) if len(parts) == 1 else (None, None)
        if element not in ("logic", "bit") or left is None or right is None:
            return None
        return Elements(element, abs(left - right) + 1, False)


def of_ports(path, text, top, ports):
    """The kinds of those ports of an entity that aren't of the packages' types, each with its subtype in words; None where one isn't known."""
    words = {name: subtype for name, _, word, subtype in ports_of(text, top) if word not in TYPES}
    done = ghdl.tree([path], "08") if words else None
    found = Kinds(UNREADABLE.sub("", done.stdout)).of_ports(top) if done and done.stdout else {}
    for it in ports:
        kind = found.get(it.name)
        if it.name in words and (kind is None or kind.width != it.shape.width()):
            return None
        if it.name in words:
            kind.is_bit, kind.subtype = it.shape.is_bit, words[it.name]
    return {name: kind for name, kind in found.items() if name in words and any(it.name == name for it in ports)}
