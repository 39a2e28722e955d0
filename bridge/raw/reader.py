"""Reads GHDL's plain VHDL into a tree."""
import re

from .tree import (Aggregate, Assign, Binary, Call, Check, Declared, Entity, If, Index, Instance, Literal, Memory, Name, Process, Qualified, Refused, Select,
                   Shape, Slice, Unary)
from .words import words

TYPES = ("std_logic", "std_logic_vector", "unsigned", "signed")
CALLS = ("unsigned", "signed", "std_logic_vector", "to_integer", "resize", "shift_left", "shift_right", "rotate_left", "rotate_right", "rising_edge", "falling_edge")
LEVELS = (
    ("and", "or", "xor", "nand", "nor", "xnor"),
    ("=", "/=", "<", "<=", ">", ">="),
    ("+", "-", "&"),
    ("*", "/", "mod", "rem"),
)


class Reader:
    def __init__(self, text):
        self.words, self.at = words(text), 0

    @property
    def text(self):
        return self.words[self.at].text

    @property
    def place(self):
        return self.words[self.at].place

    def refuse(self, why):
        raise Refused(why, self.place)

    def take(self, *texts):
        """Takes this word, which is one of these if any are given."""
        word = self.words[self.at]
        if texts and word.text not in texts:
            self.refuse(f"{' or '.join(texts)} expected, not {word.text!r}")
        self.at += 1
        return word.text

    def takes(self, text):
        """Whether the next word is this, which is taken then."""
        is_it = self.text == text
        self.at += is_it
        return is_it

    def name(self):
        if self.words[self.at].kind not in ("name", "extended"):
            self.refuse(f"a name expected, not {self.text!r}")
        found = self.take()
        while self.takes("."):
            found += f"_{self.take()}"
        # an extended identifier, and a name of several, as a plain one
        return re.sub(r"\W", "_", found.strip("\\"))

    def number(self):
        sign = -1 if self.takes("-") else 1
        return sign * int(self.take().replace("_", ""))

    # files

    def file(self):
        found = {}
        while self.text:
            if self.text in ("library", "use"):
                while self.take() != ";":
                    pass
            elif self.text == "entity":
                it = self.entity()
                found[it.name] = it
            elif self.text == "architecture":
                self.architecture(found)
            else:
                self.refuse(f"{self.text!r} isn't read here")
        return list(found.values())

    def entity(self):
        self.take("entity")
        it = Entity(self.name(), [], is_box=True)
        self.take("is")
        if self.text == "generic":
            self.refuse(f"generics of {it.name}")
        if self.takes("port"):
            self.take("(")
            while not self.takes(")"):
                it.ports.append(self.port())
                self.takes(";")
            self.take(";")
        self.take("end")
        self.takes("entity")
        self.name()
        self.take(";")
        return it

    def port(self):
        name = self.name()
        self.take(":")
        mode = self.take("in", "out", "inout", "buffer")
        shape = self.shape()
        return Declared(mode, name, shape, self.expression() if self.takes(":=") else None)

    def shape(self):
        name = self.name()
        if name == "std_logic":
            return Shape(is_bit=True)
        if not self.takes("("):
            return Shape(name=name)
        high = self.number()
        self.take("downto")
        low = self.number()
        self.take(")")
        return Shape(high, low)

    def architecture(self, found):
        self.take("architecture")
        self.name()
        self.take("of")
        it = found[self.name()]
        it.is_box = False
        self.take("is")
        while self.text != "begin":
            declared = self.declaration()
            if declared:
                it.declared.append(declared)
        self.take("begin")
        while not self.takes("end"):
            it.body.append(self.concurrent())
        self.takes("architecture")
        self.name()
        self.take(";")

    def declaration(self):
        if self.text in ("attribute", "component"):
            return self.passed_over()
        kind = self.take("signal", "constant", "variable", "type")
        name = self.name()
        if kind == "type":
            return self.memory(name)
        self.take(":")
        shape = self.shape()
        value = self.expression() if self.takes(":=") else None
        self.take(";")
        return Declared(kind, name, shape, value)

    def passed_over(self):
        if self.take() == "component":
            while not (self.take() == "end" and self.text == "component"):
                pass
        while self.take() != ";":
            pass

    def memory(self, name):
        self.take("is")
        self.take("array")
        self.take("(")
        first = self.number()
        self.take("to")
        last = self.number()
        self.take(")")
        self.take("of")
        shape = self.shape()
        self.take(";")
        return Memory(name, last - first + 1, shape)

    # concurrent statements

    def concurrent(self):
        place = self.place
        source = place if self.words[self.at].is_named else ""
        if self.text == "with":
            return self.select(place, source)
        if self.text == "process":
            return self.process(place, source)
        if self.words[self.at + 1].text == ":":
            label = self.name()
            self.take(":")
            if self.text in ("postponed", "assert"):
                while self.take() != ";":
                    pass
                return Check(label, place)
            return self.instance(label, place)
        return self.assign(place, source)

    def select(self, place, source):
        self.take("with")
        selector = self.expression()
        self.take("select")
        target = self.primary()
        self.take("<=")
        parts = []
        while True:
            value = self.expression()
            self.take("when")
            parts.append((value, self.choices()))
            if self.take(",", ";") == ";":
                return Select(selector, target, parts, place, source)

    def choices(self):
        if self.takes("others"):
            return []
        found = [self.primary()]
        while self.takes("|"):
            found.append(self.primary())
        return found

    def instance(self, label, place):
        if self.takes("entity"):
            self.take("work")
            self.take(".")
        self.takes("component")
        entity = self.name()
        if self.text == "generic":
            raise Refused(f"generics of the black box {entity}", place)
        ports = []
        if self.takes("port"):
            self.take("map")
            self.take("(")
            while not self.takes(")"):
                formal = self.name()
                self.take("=>")
                ports.append((formal, None if self.takes("open") else self.expression()))
                self.takes(",")
        self.take(";")
        return Instance(label, entity, ports, place)

    def assign(self, place, source=""):
        target = self.primary()
        is_variable = self.take("<=", ":=") == ":="
        parts = []
        while True:
            value = self.expression()
            condition = self.expression() if self.takes("when") else None
            parts.append((value, condition))
            if self.take("else", ";") == ";":
                return Assign(target, parts, place, is_variable, self.words[self.at - 1].gate, source)

    def process(self, place, source):
        self.take("process")
        sensitive, types, variables = [], [], []
        if self.takes("("):
            while not self.takes(")"):
                sensitive.append(self.primary())
                self.takes(",")
        self.takes("is")
        while self.text != "begin":
            it = self.declaration()
            if it:
                (types if isinstance(it, Memory) else variables).append(it)
        self.take("begin")
        body = self.statements()
        self.take("end")
        self.take("process")
        self.take(";")
        return Process(sensitive, types, variables, body, place, source)

    # sequential statements

    def statements(self):
        found = []
        while self.text not in ("end", "else", "elsif"):
            found.append(self.conditional() if self.text == "if" else self.assign(self.place))
        return found

    def conditional(self):
        parts = []
        self.take("if")
        while True:
            condition = self.expression()
            self.take("then")
            parts.append((condition, self.statements()))
            if self.takes("elsif"):
                continue
            if self.takes("else"):
                parts.append((None, self.statements()))
            self.take("end")
            self.take("if")
            self.take(";")
            return If(parts)

    # expressions

    def expression(self, level=0):
        if level == len(LEVELS):
            return self.factor()
        if level == 2 and self.text in ("+", "-"):
            sign = self.take()
            left = Unary(sign, self.expression(3))
        else:
            left = self.expression(level + 1)
        while self.text in LEVELS[level]:
            operator = self.take()
            left = Binary(operator, left, self.expression(level + 1))
        return left

    def factor(self):
        if self.text in ("not", "abs"):
            return Unary(self.take(), self.primary())
        if self.text == "-":
            self.take()
            return Unary("-", self.primary())
        return self.primary()

    def primary(self):
        kind = self.words[self.at].kind
        if self.takes("("):
            return self.parenthesis()
        if kind in ("char", "string"):
            return Literal(self.take())
        if kind == "number":
            return Literal(str(self.number()))
        name = self.name()
        if name in TYPES and self.takes("'"):
            self.take("(")
            return Qualified(name, self.parenthesis())
        if name in CALLS and self.takes("("):
            return Call(name, self.arguments())
        found = Name(name)
        while self.takes("("):
            found = self.part(found)
        if self.takes("'"):
            self.refuse(f"the attribute {self.text!r}")
        return found

    def part(self, base):
        first = self.expression()
        if self.takes("downto"):
            found = Slice(base, first, self.expression())
        else:
            found = Index(base, first)
        self.take(")")
        return found

    def arguments(self):
        found = [self.expression()]
        while self.takes(","):
            found.append(self.expression())
        self.take(")")
        return tuple(found)

    def parenthesis(self):
        """What stands in parentheses: an expression, or an aggregate."""
        parts = []
        while True:
            parts.append(self.element())
            if self.take(",", ")") == ")":
                break
        return parts[0][1] if len(parts) == 1 and parts[0][0] is None else Aggregate(tuple(parts))

    def element(self):
        if self.takes("others"):
            self.take("=>")
            return "others", self.expression()
        first = self.expression()
        if self.takes("downto"):
            low = self.expression()
            self.take("=>")
            return (int(first.text), int(low.text)), self.expression()
        if self.takes("=>"):
            return int(first.text), self.expression()
        return None, first
