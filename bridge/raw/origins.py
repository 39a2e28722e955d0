"""Where a signal's value comes from: clocks and resets behind copies and inverters, and a reset's values."""
from dataclasses import replace

from .tree import Assign, Binary, Call, Literal, Name, Qualified, Unary

LEVELS = ("'0'", "'1'")
EDGES = {"rising_edge": "falling_edge", "falling_edge": "rising_edge"}


class Origins:
    def test(self, it):
        """Remembers an assignment that tests the level of a signal: as a level it is a copy, or turns it round."""
        match it:
            case Assign(target=Name(text=name), parts=[(Literal(text=value), Binary(operator="=", left=Name() as other, right=Literal(text=level))), (Literal(), None)]):
                if value in LEVELS and level in LEVELS:
                    self.tested[name] = other if value == level else Unary("not", other)

    def origin(self, name, is_level=False):
        """The signal that this one copies, and whether it is turned round on the way; of a level also what it tests."""
        is_turned, seen = False, set()
        while name not in seen:
            seen.add(name)
            match self.sources.get(name) or is_level and self.tested.get(name):
                case Name(text=other):
                    name = other
                case Unary(operator="not", operand=Name(text=other)):
                    name, is_turned = other, not is_turned
                case _:
                    break
        return name, is_turned

    def edge(self, it):
        """An edge of the input that the clock comes from."""
        clock = it.arguments[0]
        if not isinstance(clock, Name):
            return it
        name, is_turned = self.origin(clock.text)
        if self.ports.get(name) != "in":
            return it
        return Call(EDGES[it.function] if is_turned else it.function, (Name(name),))

    def level(self, it):
        """A reset's condition: the input that it comes from has this level."""
        match it:
            case Binary(operator="=", left=Name(text=name), right=Literal(text=text)) if text in LEVELS:
                other, is_turned = self.origin(name, is_level=True)
                if self.ports.get(other) == "in":
                    return Binary("=", Name(other), Literal({"'0'": "'1'", "'1'": "'0'"}[text] if is_turned else text))
        return self.condition(it)

    def fixed(self, it):
        """A reset's assignment, with the literal itself where GHDL gives a signal that is joined of literals."""
        if not isinstance(it, Assign) or self.bits(it.parts[0][0]) is None:
            return it
        text, is_bit = self.bits(it.parts[0][0]), self.is_bit(it.parts[0][0])
        return replace(it, parts=[(Literal(f"'{text}'" if is_bit else f'"{text}"'), None)])

    def bits(self, it, seen=()):
        """The elements of a value that is made of literals alone, or None."""
        match it:
            case Literal():
                return it.text[1:-1]
            case Qualified():
                return self.bits(it.value, seen)
            case Name() if it.text in self.sources and it.text not in seen:
                return self.bits(self.sources[it.text], (*seen, it.text))
            case Binary(operator="&"):
                left, right = self.bits(it.left, seen), self.bits(it.right, seen)
                return None if left is None or right is None else left + right
        return None
