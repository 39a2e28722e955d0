"""Writes GHDL's plain VHDL anew within the language."""
from .lists import listed
from .loops import looped, parts_of
from .meaning import meant
from .memories import Memories
from .numbers import Numbers
from .origins import Origins
from .tree import (Aggregate, Assign, Binary, Call, Check, Declared, Entity, Event, If, Index, Instance, Literal, Name, Process, Qualified, Refused, Select, Shape,
                   Slice, Unary)
from .wide import split

WIDEST = 64
RELATIONS = ("=", "/=", "<", "<=", ">", ">=")
SUMS = ("+", "-", "*", "/", "mod", "rem")


class Scope(Numbers, Memories, Origins):
    """One entity: what it declares, and its statements as they are written anew."""

    def __init__(self, entity, entities):
        self.entity, self.entities = entity, entities
        self.shapes = {it.name: it.shape for it in entity.ports}
        self.shapes |= {it.name: it.shape for it in entity.declared if isinstance(it, Declared)}
        self.ports = {it.name: it.kind for it in entity.ports}
        self.sources, self.tested = {}, {}
        self.declared, self.body, self.notes, self.fresh_names = [], [], [], 0
        self.place = ""

    # what there is

    def refuse(self, why):
        raise Refused(why, self.place)

    def fresh(self, shape, value=None):
        """A new signal."""
        self.fresh_names += 1
        while f"made{self.fresh_names}" in self.shapes:
            self.fresh_names += 1
        name = f"made{self.fresh_names}"
        self.shapes[name] = shape
        self.declared.append(Declared("signal", name, shape, value))
        return Name(name)

    def assign(self, target, *parts):
        """An assignment of values and their conditions, as they stand."""
        self.body.append(Assign(target, list(parts), self.place))

    def kept(self, value, width):
        """A signal that has this value, a vector."""
        if isinstance(value, Name) and not self.shapes[value.text].is_bit:
            return value
        found = self.fresh(Shape(width - 1, 0))
        self.assign(found, (value, None))
        return found

    def shape(self, name):
        if name not in self.shapes:
            self.refuse(f"{name} is declared nowhere")
        return self.shapes[name]

    def width(self, it):
        """How many elements a value has; 1 of a std_logic."""
        match it:
            case Literal():
                return len(it.text) - 2 if it.is_string() else 1
            case Name():
                return self.shape(it.text).width()
            case Index():
                return 1
            case Slice():
                return int(it.high.text) - int(it.low.text) + 1
            case Qualified() | Unary():
                return self.width(it.value if isinstance(it, Qualified) else it.operand)
            case Aggregate():
                return sum(part[0] - part[1] + 1 if isinstance(part, tuple) else 1 for part, _ in it.parts)
            case Call(function="resize"):
                return int(it.arguments[1].text)
            case Call():
                return self.width(it.arguments[0])
            case Binary(operator="&"):
                return self.width(it.left) + self.width(it.right)
            case Binary(operator="*"):
                return self.width(it.left) + self.width(it.right)
            case Binary():
                return max(self.width(it.left), self.width(it.right))
        self.refuse(f"a value of a form that isn't known: {type(it).__name__}")

    def is_bit(self, it):
        """Whether a value is one std_logic, not a vector."""
        match it:
            case Literal():
                return it.text.startswith("'")
            case Name():
                return self.shape(it.text).is_bit
            case Index():
                return True
            case Qualified():
                return it.type == "std_logic"
            case Unary():
                return self.is_bit(it.operand)
            case Binary(operator="&"):
                return False
            case Binary():
                return self.is_bit(it.left)
        return False

    # expressions

    def value(self, it):
        """The same value within the language: a std_logic or a std_logic_vector."""
        match it:
            case Literal() | Name():
                return it
            case Index():
                return Index(self.value(it.base), self.static(it.at))
            case Slice():
                return self.slice(it)
            case Qualified():
                return self.value(it.value)
            case Aggregate():
                return self.aggregate(it)
            case Unary(operator="not"):
                return Unary("not", self.value(it.operand))
            case Unary():
                return self.number(it)
            case Binary():
                return self.binary(it)
            case Call(function="std_logic_vector"):
                return self.number(it.arguments[0])
            case Call():
                return self.number(it)
        self.refuse(f"a value of a form that isn't known: {type(it).__name__}")

    def static(self, it):
        if not isinstance(it, Literal):
            self.refuse("an index that isn't static")
        return it

    def slice(self, it):
        if not isinstance(it.base, Name):
            self.refuse("a slice of a value without a name")
        shape = self.shape(it.base.text)
        self.static(it.high)
        self.static(it.low)
        if (shape.high, shape.low) == (int(it.high.text), int(it.low.text)):
            return it.base
        return it

    def aggregate(self, it):
        """An aggregate as a string, or as its elements joined."""
        parts = []
        for choice, value in it.parts:
            if choice == "others":
                return Aggregate((("others", self.value(value)),))
            count = choice[0] - choice[1] + 1 if isinstance(choice, tuple) else 1
            parts += [self.value(value)] * count
        if all(isinstance(part, Literal) for part in parts):
            return Literal('"' + "".join(part.text[1:-1] for part in parts) + '"')
        if len(parts) == 1:
            return self.of_one(parts[0])
        return self.joined(*parts)

    def of_one(self, bit):
        """A vector of this one element."""
        if isinstance(bit, Literal):
            return Literal(f'"{bit.text[1:-1]}"')
        found = self.fresh(Shape(0, 0))
        self.assign(Index(found, Literal("0")), (bit, None))
        return found

    def binary(self, it):
        if it.operator in RELATIONS or it.operator in SUMS:
            return self.number(it)
        return Binary(it.operator, self.value(it.left), self.value(it.right))

    def condition(self, it):
        """The same condition, a truth."""
        match it:
            case Binary(operator="and" | "or"):
                return Binary(it.operator, self.condition(it.left), self.condition(it.right))
            case Binary() if it.operator in RELATIONS:
                return self.relation(it)
            case Call(function="rising_edge" | "falling_edge"):
                return self.edge(it)
        return self.value(it)

    # statements

    def write(self):
        """The entity written anew."""
        for it in self.entity.ports:
            self.check_port(it)
        for it in self.entity.body:
            if isinstance(it, Assign) and isinstance(it.target, Name) and len(it.parts) == 1:
                self.sources[it.target.text] = it.parts[0][0]
            self.test(it)
        self.looped = looped(self.entity.body, self.entities)
        for it in self.entity.declared:
            self.declare(it)
        for it in self.entity.body:
            self.place = it.place
            self.statement(it)
        ports = [it for it in self.entity.ports if it.shape.is_bit or it.shape.width()]
        return Entity(self.entity.name, ports, self.declared, self.body)

    def check_port(self, it):
        if it.kind not in ("in", "out"):
            self.refuse(f"the port {it.name} of mode {it.kind}")
        if it.shape.width() > WIDEST:
            self.refuse(f"the port {it.name} of {it.shape.width()} elements")
        if it.shape.name:
            self.refuse(f"the port {it.name} of the type {it.shape.name}")

    def declare(self, it):
        if it.shape.width() > WIDEST:
            self.refuse(f"the signal {it.name} of {it.shape.width()} elements")
        if it.shape.is_bit or it.shape.width():
            self.declared.append(Declared(it.kind, it.name, it.shape, it.value and self.value(it.value)))

    def statement(self, it):
        match it:
            case Check():
                self.notes.append((it.place, f"the check {it.label} is left out"))
            case Assign():
                self.assignment(it)
            case Select():
                self.selected(it)
            case Instance():
                self.instance(it)
            case Process(types=[_, *_]):
                self.memory(it)
            case Process():
                self.process(it)

    def assignment(self, it):
        if isinstance(it.target, Name) and not self.shape(it.target.text).width():
            return
        if any(condition and self.has_edge(condition) for _, condition in it.parts):
            self.notes.append((it.place, "an edge is a value here: GHDL made no register of what hangs on it"))
        parts = [(self.value(value), condition and self.condition(condition)) for value, condition in it.parts]
        if len(parts) == 1 and isinstance(it.target, Name) and it.target.text in self.looped:
            return self.by_parts(it.target, parts[0][0], it.place)
        self.body.append(Assign(self.value(it.target), parts, it.place))

    def by_parts(self, target, value, place):
        """An assignment for each part of a concatenation, and for each element of a copy: what one hangs on, the others don't."""
        if self.shape(target.text).is_bit:
            return self.body.append(Assign(target, [(value, None)], place))
        high = self.shape(target.text).high
        for part in (part for it in parts_of(value) for part in self.elements(it)):
            width = self.width(part)
            at = Literal(str(high))
            to = Index(target, at) if self.is_bit(part) else Slice(target, at, Literal(str(high - width + 1)))
            self.body.append(Assign(to, [(part, None)], place))
            high -= width

    def elements(self, it):
        """A signal's elements, the leftmost first; any other value as it is."""
        match it:
            case Name() if not self.is_bit(it):
                shape = self.shape(it.text)
                return [Index(it, Literal(str(at))) for at in range(shape.high, shape.low - 1, -1)]
            case Slice(base=Name()):
                return [Index(it.base, Literal(str(at))) for at in range(int(it.high.text), int(it.low.text) - 1, -1)]
        return [it]

    def selected(self, it):
        parts = [(self.value(value), [self.value(choice) for choice in choices]) for value, choices in it.parts]
        selector = self.value(it.selector)
        if not isinstance(selector, Name):
            selector = self.kept(selector, self.width(selector))
        self.body.append(Select(selector, self.value(it.target), parts, it.place))

    def instance(self, it):
        if it.entity not in self.entities:
            self.refuse(f"the black box {it.entity}")
        shapes = {port.name: port for port in self.entities[it.entity].ports}
        ports = [(formal, self.actual(shapes[formal], actual)) for formal, actual in it.ports]
        self.body.append(Instance(it.label, it.entity, [pair for pair in ports if pair[1] is not None], it.place))

    def actual(self, port, actual):
        """An actual of a port: a name; None where it is open, or there is nothing to connect."""
        if actual is None or not port.shape.width():
            return None
        value = self.value(actual)
        if isinstance(value, (Name, Index, Slice)) and not self.is_constant(value):
            return value
        found = self.fresh(port.shape)
        self.assign(found, (value, None))
        return found

    def ports_of(self, entity):
        return self.entities[entity].ports if entity in self.entities else []

    def is_constant(self, it):
        return isinstance(it, Name) and any(isinstance(d, Declared) and d.kind == "constant" and d.name == it.text for d in self.entity.declared)

    def process(self, it):
        body = [self.sequential(part) for part in it.body]
        if len(body) == 1 and isinstance(body[0], If) and any(self.has_edge(condition) for condition, _ in body[0].parts):
            wakes = self.wakes(body[0])
            self.body.append(Process(wakes, [], [], [by_event(body[0])] if it.is_event else body, it.place))
        else:
            self.body.append(Process([Name("all")], [], [], body, it.place))

    def wakes(self, it):
        """What a register's process is sensitive to: what its first conditions read."""
        found = []
        for condition, _ in it.parts:
            found += [name for name in self.read(condition) if name not in found]
        return found

    def read(self, it):
        match it:
            case Name():
                return [it]
            case Index():
                return [it]
            case Call():
                return [name for part in it.arguments for name in self.read(part)]
            case Binary():
                return self.read(it.left) + self.read(it.right)
            case Unary():
                return self.read(it.operand)
        return []

    def has_edge(self, it):
        match it:
            case Call(function="rising_edge" | "falling_edge"):
                return True
            case Binary():
                return self.has_edge(it.left) or self.has_edge(it.right)
        return False

    def sequential(self, it):
        if isinstance(it, Assign):
            return Assign(self.value(it.target), [(self.value(value), condition) for value, condition in it.parts], it.place)
        has_edge = any(self.has_edge(condition) for condition, _ in it.parts if condition)
        return If([self.branch(condition, body, has_edge) for condition, body in it.parts])

    def branch(self, condition, body, has_edge):
        """A branch; an edge with an enable becomes an if within the edge's."""
        body = [self.sequential(it) for it in body]
        match condition:
            case None:
                return None, body
            case Binary(operator="and", left=Call() as edge, right=enable) if self.has_edge(edge):
                return self.edge(edge), [If([(self.condition(enable), body)])]
        if has_edge and not self.has_edge(condition):
            return self.level(condition), [self.fixed(it) for it in body]
        return self.condition(condition), body


def by_event(it):
    """A register's if, with its edge by 'event."""
    level = {"rising_edge": "'1'", "falling_edge": "'0'"}
    edge = lambda condition: Event(condition.arguments[0], Literal(level[condition.function])) if isinstance(condition, Call) else condition
    return If([(edge(condition), body) for condition, body in it.parts])


def rewritten(entities, facts=None):
    """The entities anew, and what was left out: places and sentences. `facts` are those of the sources, by place."""
    by_name = {it.name: it for it in entities}
    found, narrow, facts = [], [], facts or {}
    meanings = [meant(Scope(it, by_name), facts) for it in entities]
    entities = [entity for entity, _, _ in meanings]
    notes = [note for _, _, said in meanings for note in said]
    for it in entities:
        entity, said = split(it, Scope(it, by_name))
        narrow.append(entity)
        notes += said
    by_name = {it.name: it for it in narrow}
    for it, (_, signals, _) in zip(narrow, meanings):
        scope = Scope(it, by_name)
        found.append(scope.write())
        notes += scope.notes + listed(found[-1], signals, facts)
    return found, notes
