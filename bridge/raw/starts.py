"""What signals, ports and registers start with: what their declarations or types say."""
from .tree import Aggregate, Assign, Binary, Declared, If, Index, Instance, Literal, Name, Process, Slice

SIGNALS = ("signal", "isignal", "port", "output")


def literal(text, shape):
    return Literal(f"'{text}'" if shape.is_bit else f'"{text}"')


def is_idle(value):
    """Whether each element of a constant is Z."""
    match value:
        case Literal(text=text):
            return set(text[1:-1]) == {"Z"}
        case Aggregate(parts=parts):
            return all(is_idle(part) for _, part in parts)
    return False


def filled(text, width):
    """The elements of a start: a * is for as many of the element before it as there are."""
    at = text.find("*")
    return text if at < 0 else text[: at - 1] + text[at - 1] * (width - len(text) + 2) + text[at + 1 :]


class Starts:
    """The part of Meaning for them."""

    def started(self):
        """Registers without a first value get that of the signal that they are."""
        self.starts = {}
        for it in self.entity.body:
            match isinstance(it, Assign) and self.fact(it):
                case ["signal" | "variable", name, _, text, *_] if text != "-" and it.gate in SIGNALS:
                    self.start(it.parts[0][0], text, self.scope.width(it.target))
        for it in self.entity.ports:
            text = self.of_port(it.name)[1]
            if it.kind == "in" and text != "-" and len(filled(text, it.shape.width())) == it.shape.width():
                it.value = literal(filled(text, it.shape.width()), it.shape)
            if it.kind == "out" and text != "-" and it.name in self.wholes:
                self.start(self.value(it.name), text, it.shape.width())
                self.keep(self.value(it.name), filled(text, it.shape.width()))
        for it in self.entity.declared:
            if isinstance(it, Declared) and it.value is None and it.name in self.starts:
                it.value = literal("".join(self.starts[it.name]), it.shape)

    def keep(self, value, text):
        """A port that nothing assigns keeps what it starts with: GHDL gives it a constant of Z."""
        for it in self.entity.declared if isinstance(value, Name) else ():
            if isinstance(it, Declared) and it.name == value.text and it.kind == "constant" and self.scope.width(value) == len(text):
                if is_idle(it.value):
                    it.value = literal(text, it.shape)

    def of_port(self, name):
        """The class of a port and what it starts with, by its name and its entity's."""
        for fact in self.facts.values():
            match fact.split():
                case ["signal", port, kind, text, entity] if port == name and (self.entity.name + "_").startswith(entity + "_"):
                    return kind, text
        return "", "-"

    def is_box(self, it):
        """Whether a statement is an instance of a component that nothing is bound to."""
        return isinstance(it, Instance) and it.entity in self.scope.entities and self.scope.entities[it.entity].is_box

    def boxed(self):
        """What stands in a black box: its outputs keep what they start with."""
        words = [fact.split() for fact in self.facts.values()]
        starts = {it[1]: it[3] for it in words if it[0] == "signal" and it[4:] == ["component", self.entity.name.lower()]}
        texts = [(it, starts.get(it.name.lower(), "-")) for it in self.entity.ports if it.kind == "out"]
        found = [(it, filled(text, it.shape.width())) for it, text in texts if text != "-"]
        return [Assign(Name(it.name), [(literal(text, it.shape), None)]) for it, text in found if len(text) == it.shape.width()]

    def start(self, value, text, width):
        text = filled(text, width)
        if len(text) == width:
            self.pour(value, text)

    def states_started(self, gates):
        """What the registers start with that GHDL has as gates."""
        starts = {it.target.text: filled(self.fact(it)[3], self.scope.width(it.target)) for it in gates if len(self.fact(it)) > 3}
        for it in self.entity.declared:
            shape = getattr(it, "shape", None)
            if it.name in starts and len(starts[it.name]) == shape.width() and starts[it.name] != "-":
                it.value = literal(starts[it.name], shape)

    def pour(self, value, text):
        """These elements are what a value starts with: what the registers in it start with."""
        match value:
            case Name() if value.text in self.registers():
                self.put(value.text, len(text) - 1, text)
            case Name() if value.text in self.wholes and self.wholes[value.text].gate != "port":
                self.pour(self.value(value.text), text)
            case Slice(base=Name(text=name)) if name in self.registers():
                self.put(name, int(value.high.text), text)
            case Index(base=Name(text=name), at=Literal()) if name in self.registers():
                self.put(name, int(value.at.text), text)
            case Binary(operator="&"):
                width = self.scope.width(value.right)
                self.pour(value.left, text[: len(text) - width])
                self.pour(value.right, text[len(text) - width :])

    def put(self, name, high, text):
        width = self.scope.shape(name).width()
        elements = self.starts.setdefault(name, ["U"] * width)
        elements[width - 1 - high : width - 1 - high + len(text)] = text

    def registers(self):
        """The signals that are assigned at edges."""
        if not hasattr(self, "_registers"):
            assigns = [part for it in self.entity.body if isinstance(it, Process) and not it.types for part in it.body if isinstance(part, If)]
            self._registers = {inner.target.text for it in assigns for _, body in it.parts for inner in body if isinstance(inner.target, Name)}
        return self._registers
