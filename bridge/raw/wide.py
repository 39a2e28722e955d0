"""Signals and ports of more elements than a vector has here become several, where they are only sliced, joined, chosen among and copied."""
from dataclasses import replace

from .tree import Aggregate, Assign, Binary, Call, Declared, Entity, If, Index, Instance, Literal, Name, Process, Qualified, Refused, Select, Shape, Slice, Unary

WIDEST = 64
MOST = 4096
BITWISE = ("and", "or", "xor", "nand", "nor", "xnor")


def chunks(name, shape):
    """The vectors that a wide one becomes, the rightmost first: names and shapes."""
    lows = range(shape.low, shape.high + 1, WIDEST)
    return [(f"{name}_part{at}", Shape(min(low + WIDEST - 1, shape.high), low)) for at, low in enumerate(lows)]


def is_wide(shape):
    return shape.width() > WIDEST


def joined(parts):
    found = parts[0]
    for it in parts[1:]:
        found = Binary("&", found, it)
    return found


class Wide:
    """One entity, and what becomes of its wide signals."""

    def __init__(self, scope):
        self.scope, self.place = scope, ""

    def refuse(self, what):
        raise Refused(f"{what} of more than {WIDEST} elements", self.place)

    def shape(self, name):
        """A signal's shape; that of one element where it is none, but a memory of a process."""
        return self.scope.shapes.get(name, Shape(is_bit=True))

    def declared(self, them):
        """Declarations, the wide ones in parts, the leftmost first."""
        found = []
        for it in them:
            if not isinstance(it, Declared) or not is_wide(it.shape):
                found.append(it)
                continue
            if it.shape.width() > MOST:
                raise Refused(f"the {'signal' if it.kind == 'signal' else 'port'} {it.name} of {it.shape.width()} elements")
            for name, shape in reversed(chunks(it.name, it.shape)):
                value = it.value and self.elements(it.value, shape.high - it.shape.low, shape.low - it.shape.low)
                found.append(Declared(it.kind, name, shape, value))
        return found

    # the elements of a value from a place to a place, counted from the right

    def elements(self, it, high, low):
        match it:
            case Literal():
                text = it.text[1:-1]
                text = text[len(text) - 1 - high : len(text) - low]
                return Literal(f'"{text}"') if high > low else Literal(f"'{text}'")
            case Name():
                return self.of_name(it, high, low)
            case Index():
                return self.value(it)
            case Slice(base=Name() as base, low=Literal(text=text)):
                first = int(text) - self.shape(base.text).low
                return self.of_name(base, first + high, first + low)
            case Qualified():
                return self.elements(it.value, high, low)
            case Aggregate(parts=((_, Literal(text=text)),)):
                return Literal(f'"{text[1] * (high - low + 1)}"') if high > low else Literal(text)
            case Unary(operator="not"):
                return Unary("not", self.elements(it.operand, high, low))
            case Binary(operator="&"):
                return self.of_two(it, high, low)
            case Binary() if it.operator in BITWISE:
                return Binary(it.operator, self.elements(it.left, high, low), self.elements(it.right, high, low))
        self.refuse("an operation on vectors")

    def of_name(self, it, high, low):
        shape = self.shape(it.text)
        if shape.is_bit:
            return it
        if not is_wide(shape):
            return self.within(it, shape, shape.low + high, shape.low + low)
        parts = []
        for name, part in reversed(chunks(it.text, shape)):
            top, bottom = min(part.high, shape.low + high), max(part.low, shape.low + low)
            if top >= bottom:
                parts.append(self.within(Name(name), part, top, bottom))
        return joined(parts)

    def within(self, it, shape, high, low):
        if high == low:
            return Index(it, Literal(str(low)))
        if (high, low) == (shape.high, shape.low):
            return it
        return Slice(it, Literal(str(high)), Literal(str(low)))

    def of_two(self, it, high, low):
        width = self.scope.width(it.right)
        if low >= width:
            return self.elements(it.left, high - width, low - width)
        if high < width:
            return self.elements(it.right, high, low)
        return Binary("&", self.elements(it.left, high - width, 0), self.elements(it.right, width - 1, low))

    # values of at most the widest vector's elements

    def value(self, it):
        match it:
            case Index(base=Name() as base, at=Literal(text=text)):
                place = int(text) - self.shape(base.text).low
                return self.of_name(base, place, place) if is_wide(self.shape(base.text)) else it
            case Slice(base=Name() as base):
                wide = is_wide(self.shape(base.text))
                return self.elements(it, self.scope.width(it) - 1, 0) if wide else it
            case Index(base=Name()):
                return Index(it.base, self.value(it.at))
            case Call():
                return Call(it.function, tuple(self.value(part) for part in it.arguments))
            case Qualified():
                return Qualified(it.type, self.value(it.value))
            case Aggregate():
                return Aggregate(tuple((choice, self.value(part)) for choice, part in it.parts))
            case Unary():
                return Unary(it.operator, self.value(it.operand))
            case Binary(operator="=" | "/=") if self.is_compared(it):
                return self.compared(it)
            case Binary():
                return Binary(it.operator, self.value(it.left), self.value(it.right))
            case Name() if is_wide(self.shape(it.text)):
                self.refuse("an operation on vectors")
        return it

    def is_compared(self, it):
        return any(isinstance(side, Name) and is_wide(self.shape(side.text)) for side in (it.left, it.right))

    def compared(self, it):
        """Two wide vectors are equal where all their parts are."""
        width, found = self.scope.width(it), None
        for low in range(0, width, WIDEST):
            high = min(low + WIDEST, width) - 1
            part = Binary(it.operator, self.elements(it.left, high, low), self.elements(it.right, high, low))
            found = part if found is None else Binary("and" if it.operator == "=" else "or", found, part)
        return found

    # statements

    def statements(self, them):
        return [part for it in them for part in self.statement(it)]

    def statement(self, it):
        self.place = getattr(it, "place", self.place)
        match it:
            case Assign():
                parts = lambda high, low: [(self.cut(value, high, low), condition and self.value(condition)) for value, condition in it.parts]
                return [replace(it, target=target, parts=parts(high, low)) for target, high, low in self.targets(it.target)]
            case Select():
                parts = lambda high, low: [(self.cut(value, high, low), choices) for value, choices in it.parts]
                selector = self.value(it.selector)
                return [replace(it, selector=selector, target=target, parts=parts(high, low)) for target, high, low in self.targets(it.target)]
            case If():
                return [If([(condition and self.value(condition), self.statements(body)) for condition, body in it.parts])]
            case Process(types=[_, *_]):
                return self.memory(it)
            case Process():
                return [replace(it, body=self.statements(it.body))]
            case Instance():
                return [replace(it, ports=[pair for formal, actual in it.ports for pair in self.connected(it, formal, actual)])]
        return [it]

    def memory(self, it):
        """A memory's process; what it reads into parts of a wide signal goes by a signal of its own."""
        word, after = it.types[0].shape, []
        if is_wide(word):
            self.refuse("a memory with words")

        def narrow(part):
            if isinstance(part, If):
                return If([(condition and self.value(condition), [narrow(inner) for inner in body]) for condition, body in part.parts])
            target, values = part.target, [(self.value(value), condition) for value, condition in part.parts]
            if self.targets(target)[0][1] is not None:
                target = self.scope.fresh(word)
                after.extend(self.statement(Assign(part.target, [(target, None)], it.place)))
            return replace(part, target=target, parts=values)

        return [replace(it, body=[narrow(part) for part in it.body]), *after]

    def targets(self, it):
        """What is assigned, in parts, with the places of the value that each gets; None where it is whole."""
        match it:
            case Name() if is_wide(self.shape(it.text)):
                base = self.shape(it.text).low
                return [(self.target(name, shape), shape.high - base, shape.low - base) for name, shape in chunks(it.text, self.shape(it.text))]
            case Slice(base=Name() as base) | Index(base=Name() as base) if is_wide(self.shape(base.text)):
                return self.partly(it, base)
        return [(it, None, None)]

    def target(self, name, shape):
        return Index(Name(name), Literal(str(shape.low))) if shape.width() == 1 else Name(name)

    def partly(self, it, base):
        high, low = (int(it.high.text), int(it.low.text)) if isinstance(it, Slice) else (int(it.at.text),) * 2
        found = []
        for name, shape in chunks(base.text, self.shape(base.text)):
            top, bottom = min(shape.high, high), max(shape.low, low)
            if top >= bottom:
                found.append((self.within(Name(name), shape, top, bottom), top - low, bottom - low))
        return found

    def cut(self, value, high, low):
        return self.value(value) if high is None else self.elements(value, high, low)

    def connected(self, it, formal, actual):
        """A port's association, in parts where it is wide."""
        shape = next((port.shape for port in self.scope.ports_of(it.entity) if port.name == formal), None)
        if shape is None or not is_wide(shape):
            return [(formal, actual and self.value(actual))]
        parts = chunks(formal, shape)
        return [(name, actual and self.elements(actual, part.high - shape.low, part.low - shape.low)) for name, part in parts]


def split(entity, scope):
    """The entity without wide signals, and what is to be said of its ports."""
    it = Wide(scope)
    ports, declared, body = it.declared(entity.ports), it.declared(entity.declared), it.statements(entity.body)
    notes = [("", f"the port {port.name} is in parts: {', '.join(name for name, _ in chunks(port.name, port.shape))}") for port in entity.ports if is_wide(port.shape)]
    return Entity(entity.name, ports, declared + scope.declared, body), notes
