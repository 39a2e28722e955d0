"""Comparisons, of operands of the class that the source's have: numbers, vectors, truths, and the operators that match."""
from dataclasses import replace

from .loops import parts_of
from .tree import Aggregate, Assign, Binary, Call, Index, Literal, Name, Qualified, Shape, Slice, Unary

ZERO, ONE = Literal("'0'"), Literal("'1'")
EQUALITIES = ("=", "/=")
RELATIONS = {"equality", "inequality", "less_than", "less_than_or_equal", "greater_than", "greater_than_or_equal"}


def is_zero(it):
    return it.value == ZERO if isinstance(it, Qualified) else it == ZERO


def is_literal(it):
    return isinstance(it, (Literal, Qualified, Aggregate))


class Comparisons:
    """The part of Meaning for them."""

    def extreme(self, it, one, condition, other):
        """The minimum or maximum of two numbers: undefined where one of them is (numeric_std, MINIMUM)."""
        width = self.scope.width(one)
        undefined, zeros = Literal(f'"{"X" * width}"'), Qualified("unsigned", Literal(f'"{"0" * width}"'))
        number = lambda value: Call("std_logic_vector", (Binary("+", Call("unsigned", (value,)), zeros),))
        parts = [(undefined, Binary("/=", Call("unsigned", (value,)), Call("unsigned", (value,)))) for value in (one, other) if not is_literal(value)]
        return replace(it, parts=[*parts, (number(one), condition), (number(other), None)])

    def with_dropped(self, value, choices):
        """The tests of a case, the first on the right: one that GHDL gives as '0' since its choice isn't of 0 and 1 is made by the others' pattern."""
        tests = parts_of(value)[::-1]
        asked = next((it.left for it in map(self.condition_of, tests) if it), None)
        if asked is None or len(tests) != len(choices):
            return value
        for at, choice in enumerate(choices):
            if is_zero(tests[at]):
                tests[at] = self.scope.fresh(Shape(is_bit=True))
                self.assign(tests[at], (ONE, Binary("=", asked, Literal(choice))), (ZERO, None))
        return self.reduced("&", tests[::-1])

    def condition_of(self, it):
        """The comparison that a net is the value of, or None."""
        parts = self.chosen.get(it.text, []) if isinstance(it, Name) else []
        return parts[0][1] if parts and isinstance(parts[0][1], Binary) else None

    def is_comparison(self, it):
        return self.fact(it)[:1] == ["choice"] or self.fact(it)[:1] == ["operator"] and self.fact(it)[1] in RELATIONS

    def comparison(self, it, condition):
        match self.fact(it):
            case ["operator", "match_equality" | "match_inequality" as operator, *_]:
                return self.plain(it, self.matched(it, condition, operator == "match_inequality"))
            case ["operator", operator, kind, *_] if operator.startswith("match_"):
                return self.ordered(it, condition, operator, kind)
            case ["call", "std_match" | "find_leftmost" | "find_rightmost"]:
                found = self.scope.fresh(Shape(is_bit=True))
                self.assign(found, (self.matched(it, condition, False), None))
                return self.choice(it, found, ONE, ONE, ZERO)
        match condition:
            case Binary(operator="/=" | "=" as operator, left=Name() as left, right=Aggregate(parts=((_, element),))) if not self.is_comparison(it):
                if element == (ZERO if operator == "/=" else ONE):
                    return self.plain(it, self.reduced("or" if operator == "/=" else "and", self.elements(left)))
        return replace(it, parts=[(it.parts[0][0], self.compared(it, condition)), it.parts[1]])

    def elements(self, it):
        """A value's elements, the leftmost first."""
        match it:
            case Literal():
                return [Literal(f"'{text}'") for text in it.text[1:-1]]
            case Qualified():
                return self.elements(it.value)
            case Aggregate(parts=(((int(high), int(low)), element),)):
                return [element] * (high - low + 1)
        shape = self.scope.shape(it.text)
        return [it] if shape.is_bit else [Index(it, Literal(str(at))) for at in range(shape.high, shape.low - 1, -1)]

    def reduced(self, operator, parts):
        found = parts[0]
        for it in parts[1:]:
            found = Binary(operator, found, it)
        return found

    def matched(self, it, condition, is_turned):
        """The value of ?=, each pair of elements by itself: a - is equal to all. Where one is - in the source GHDL masks it before."""
        pairs, left = [], condition.left
        mask = "1" * self.scope.width(left)
        match isinstance(left, Name) and left.text in self.wholes and self.wholes[left.text]:
            case Assign(parts=[(Binary(operator="and", left=Name() as whole, right=Literal(text=text)), None)], source=source) if source == it.source:
                left, mask = whole, text[1:-1]
        for one, other, is_asked in zip(self.elements(left), self.elements(condition.right), mask):
            if is_asked != "1":
                continue
            pairs.append(self.scope.fresh(Shape(is_bit=True)))
            names = [it for it in (one, other) if not isinstance(it, Literal)]
            self.assign(pairs[-1], *((ONE, Binary("=", it, Literal("'-'"))) for it in names), (Binary("xnor", one, other), None))
        found = self.reduced("and", pairs) if pairs else ONE
        if self.fact(it)[2:3] == ["number"] and len(pairs) > 1:
            found = self.all_or_none(pairs, found)
        return Unary("not", found) if is_turned else found

    def all_or_none(self, parts, value):
        """This value, or undefined where one of these parts is (numeric_std, ?=)."""
        together, found = self.scope.fresh(Shape(len(parts) - 1, 0)), self.scope.fresh(Shape(is_bit=True))
        self.assign(together, (self.reduced("&", parts), None))
        self.assign(found, (Literal("'X'"), Binary("/=", Call("unsigned", (together,)), Call("unsigned", (together,)))), (value, None))
        return found

    def ordered(self, it, condition, operator, kind):
        """The value of ?< and its like: undefined where a side is; of one element a - is still equal to all."""
        sides = [side for side in (condition.left, condition.right) if not isinstance(side, Literal) and not isinstance(getattr(side, "value", None), Literal)]
        parts = [(Literal("'X'"), Binary("/=", side, side)) for side in sides]
        if kind == "logic":
            undefined, elements = Literal("'X'"), [side.value.parts[0][1] for side in sides]
            dash = {"match_less_than_or_equal": ONE, "match_greater_than": ZERO}.get(operator, undefined)
            parts = [(value, Binary("=", each, Literal(level))) for value, level in ((dash, "'-'"), (Literal("'U'"), "'U'")) for each in elements] + parts
        return replace(it, parts=parts + it.parts)

    def compared(self, it, condition):
        """A comparison, of operands of the class that the source's have."""
        left, right = self.uncut(it, condition.left), self.uncut(it, condition.right)
        if self.is_of(it, RELATIONS, "integer") or self.fact(it) == ["choice", "integer"]:
            return Binary(condition.operator, self.number(left), self.number(right))
        if self.is_of(it, RELATIONS, "boolean"):
            return Binary(condition.operator, self.truth(left), self.truth(right))
        if self.is_of(it, RELATIONS, "number") and condition.operator in EQUALITIES and not self.scope.is_bit(left):
            type = "signed" if self.fact(it)[3:] == ["signed"] else "unsigned"
            return Binary(condition.operator, Call(type, (left,)), Call(type, (right,)))
        return Binary(condition.operator, left, right)

    def uncut(self, it, side):
        """A side of a comparison: GHDL cuts an integer to the length of the vector that it is compared with."""
        if isinstance(side, Call):
            return replace(side, arguments=(self.uncut(it, side.arguments[0]), *side.arguments[1:]))
        own = self.wholes.get(side.text) if isinstance(side, Name) else None
        is_cut = own is not None and own.gate == "trunc" and own.source == it.source and self.is_of(it, RELATIONS, "number")
        return own.parts[0][0].base if is_cut and isinstance(own.parts[0][0], Slice) else side
