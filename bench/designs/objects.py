"""Random designs with integers and booleans as signals, ports and variables, as `--wide` reads them: in expressions, assignments, cases and
selected assignments, stimuli, and between instances.

An integer named o.. may leave its range. GHDL would stop there, and this program gives it X: for GHDL it is an integer without a range,
of which the least one stands for X, and each statement and relation that reads it has a condition."""
from typing import NamedTuple

from computed import GREATEST, LEAST, ComputedDesign, Number, either, literal
from designs import Design, Signal


class Range(NamedTuple):
    """which integers a type has, and how it is written"""

    least: int
    greatest: int
    text: str

    def near(self, r):
        """one of it, often an end"""
        ends = [self.least, self.greatest, min(max(0, self.least), self.greatest)]
        return r.choice([*ends, r.randint(self.least, self.greatest), r.randint(self.least, self.greatest)])


WHOLE = Range(LEAST, GREATEST, "integer")
BY_NAME = [WHOLE, Range(0, GREATEST, "natural"), Range(1, GREATEST, "positive")]


def between(r, least, greatest):
    ends = f"{literal(least)} to {literal(greatest)}" if r.random() < 0.7 else f"{literal(greatest)} downto {literal(least)}"
    return Range(least, greatest, f"integer range {ends}")


class Object(Signal):
    """kind: i an integer, whose range stands in words, b a boolean"""

    def __init__(self, name, kind, words=None, may_fail=False):
        super().__init__(name, kind, 1, words=words)
        self.may_fail = may_fail

    def type(self):
        if self.kind == "b":
            return "boolean"
        return either(self.words.text, "integer") if self.may_fail else self.words.text

    def drawn(self, r, letters):
        return r.choice(["true", "false"]) if self.kind == "b" else str(self.words.near(r))

    def quoted(self, value):
        return value if value[0] != "-" else f"({value})"


class ObjectDesign(ComputedDesign):
    # declarations

    def range(self):
        r, k = self.r, self.r.random()
        if k < 0.15:
            return r.choice(BY_NAME)
        if k < 0.25:
            least, greatest = sorted(r.randint(LEAST, GREATEST) for _ in range(2))
            return between(r, least, greatest)
        least = r.choice([0, 0, 0, 1, r.randint(-9, 9), r.randint(-300, 20)])
        return between(r, least, least + r.choice([0, 1, 3, 7, 9, r.randint(1, 20), r.randint(1, 300)]))

    def object(self, name, kind=None):
        if (kind or self.r.choice("iib")) == "b":
            return Object(name, "b")
        near = [s.words for s in self.known if s.kind == "i"]
        return Object(name, "i", self.r.choice(near) if near and self.chance(0.4) else self.range())

    def type_of(self, s):
        """perhaps by a subtype of its own"""
        if s.kind != "i" or s.may_fail or s.name[0] == "x" or s.words in BY_NAME or not self.chance(0.2):
            return super().type_of(s)
        name = self.fresh("t")
        self.decls.append(f"subtype {name} is {s.words.text};")
        return name

    def literal(self, s):
        if s.kind == "b":
            return self.r.choice(["true", "false"])
        if s.kind != "i":
            return super().literal(s)
        n = s.words.near(self.r)
        return "integer'low" if n == LEAST else literal(n)

    def in_port(self, name):
        return self.object(name) if self.chance(0.4) else super().in_port(name)

    def variable(self):
        return self.object(self.fresh("v")) if self.chance(0.4) else super().variable()

    def kept_variable(self, name):
        return self.object(name) if self.chance(0.4) else super().kept_variable(name)

    def any(self, out=False, start=False):
        if self.chance(0.55):
            return super().any(out, start)
        s = self.object(self.fresh("f"))
        if s.kind == "i":
            s.may_fail = not out and s.words not in BY_NAME and s.words.greatest - s.words.least < 2**20 and self.chance(0.3)
            s.name = ("o" if s.may_fail else "j") + s.name[1:]
        return self.declared(s, out, start or s.may_fail)

    def declared(self, s, out, start):
        written = s.type() if out else self.type_of(s)
        text = f"{s.name} : {'out ' if out else ''}{written}{f' := {self.literal(s)}' if start else ''}"
        if out:
            self.outs.append(text)
            self.out_ports.append(s)
        else:
            self.decls.append(f"signal {text};")
        return s

    def declare_like(self, port):
        if port.kind not in "ib":
            return super().declare_like(port)
        return self.declared(Object(self.fresh("j" if port.kind == "i" else "f"), port.kind, port.words), False, False)

    def actual(self, port):
        if port.kind not in "ib":
            return super().actual(port)
        near = [s.name for s in self.known if s.kind == port.kind and s.name[0] not in "vxo" and s.words == port.words]
        return self.r.choice(near) if near else None

    # values

    def objects(self, kind, may_fail=False):
        return [s for s in self.known if s.kind == kind and (may_fail or not s.may_fail)]

    def sources(self):
        return super().sources() or [Signal("i0", "s", 1)]

    def read_integer(self, deep, most=5):
        near = self.objects("i", deep != 0 and most > 5)
        if near and self.chance(0.6):
            s = self.r.choice(near)
            return Number(s.name, s.words.least, s.words.greatest, (f"{s.name} /= integer'low",) if s.may_fail else ())
        return super().read_integer(deep, most) if super().sources() else self.known_integer()

    def number(self, deep, may_fail=False):
        """one that may fail reads a signal: a known integer outside its range is refused"""
        j = self.any_number(deep, may_fail)
        for _ in range(4):
            if not may_fail or self.reads(j.text):
                return j
            j = self.any_number(deep, may_fail)
        return Number("1", 1, 1)

    def any_number(self, deep, may_fail):
        near = self.objects("i", True)
        if may_fail and near and self.chance(0.3):
            s = self.r.choice(near)
            return Number(s.name, s.words.least, s.words.greatest, (f"{s.name} /= integer'low",) if s.may_fail else ())
        return super().number(deep, may_fail)

    def natural(self, deep):
        j = self.number(deep)
        if j.least == LEAST:
            j = self.known_integer()
        return j if j.least >= 0 else Number(f"(abs {j.text})", 0, max(-j.least, j.greatest), j.guards)

    def doubtful_divisor(self):
        y = super().doubtful_divisor()
        return y if y.least < y.greatest else Number("3", 3, 3)

    def integer_of(self, s, deep):
        """an integer that is always one of its type"""
        least, greatest = s.words[:2]
        for _ in range(3):
            j = self.number(deep)
            if not j.guards and j.is_within(least, greatest):
                return j.text
        count = greatest - least + 1
        if count > GREATEST:
            return self.literal(s)
        text = self.below(count, deep).text
        if least == 0:
            return text
        return f"({text}) + {least}" if least > 0 else "integer'low + (" + text + ")" if least == LEAST else f"({text}) - {-least}"

    def value(self, s, deep=2):
        if s.kind == "b":
            return self.truth(deep) if self.chance(0.9) else self.literal(s)
        if s.kind == "i":
            return self.integer_of(s, deep) if self.chance(0.85) else self.literal(s)
        return super().value(s, deep)

    def truth(self, deep):
        r, k, near = self.r, self.r.random(), self.objects("b")
        if near and k < 0.3:
            f = r.choice(near).name
            forms = [f, f"not {f}", f"{f} = {r.choice(near).name}", f"({f} {r.choice(['=', '/='])} ({super().truth(deep - 1)}))"]
            return r.choice(forms)
        if k < 0.4:
            return f"({super().truth(deep - 1)}) {r.choice(['and', 'or', 'xor', '=', '/='])} ({super().truth(deep - 1)})"
        return super().truth(deep)

    # statements

    def assign(self, s, sign, deep=2):
        if not getattr(s, "may_fail", False):
            return super().assign(s, sign, deep)
        j = self.number(2, True)
        guards = j.guards + j.conditions(s.words.least, s.words.greatest)
        if j.text == "1" and guards:
            return f"{s.name} {sign} {self.literal(s)};"
        text = f"{s.name} {sign} {j.text};"
        return either(text, f"if {' and '.join(guards)} then {text} else {s.name} {sign} integer'low; end if;") if guards else text

    def concurrent(self, s):
        if getattr(s, "may_fail", False):
            return self.process([s])
        near = [x for x in self.known if x.kind == "b" or (x.kind == "i" and not x.may_fail)]
        if near and self.chance(0.15):
            x = self.r.choice(near)
            arms = [" | ".join(its) for its in self.choices(x)]
            last = self.r.choice([arms[-1], "others"])
            made = ", ".join(f"{self.value(s)} when {c}" for c in [*arms[:-1], last])
            return f"{self.label()}with {x.name} select {s.name} <= {made};"
        return super().concurrent(s)

    def choices(self, x):
        """[[choice]]: all values of an object, in parts"""
        r = self.r
        if x.kind == "b":
            return r.choice([[["true"], ["false"]], [["false"], ["true"]], [["true", "false"]]])
        least, greatest = x.words[:2]
        cuts = sorted({r.randint(least, greatest) for _ in range(r.randint(0, 5))} - {least})
        ends = list(zip([least, *cuts], [c - 1 for c in cuts] + [greatest]))
        ends.sort(key=lambda e: e[1] - e[0])
        if sum(b - a + 1 for a, b in ends[:-1]) > 4096:
            ends = [(least, greatest)]
        parts = []
        for a, b in ends:
            a, b = ("integer'low" if n == LEAST else self.named(n) for n in (a, b))
            parts.append(a if a == b else r.choice([f"{a} to {b}", f"{b} downto {a}"]))
        rest, out = parts[:-1], []
        r.shuffle(rest)
        while rest:
            n = r.randint(1, 2)
            out.append(rest[:n])
            rest = rest[n:]
        return [*out, parts[-1:]]

    def choose(self, s, sign, deep, whole):
        near = self.objects("b") + self.objects("i", True)
        near = [x for x in near if x is not s]
        if not near or not self.chance(0.5):
            return super().choose(s, sign, deep, whole)
        x = self.r.choice(near)
        below = lambda: self.statement(s, sign, deep - 1, whole)
        its = self.choices(x)
        last = " | ".join(its[-1]) if self.chance(0.6) else "others"
        if x.may_fail:
            last = either(last, "others")
        arms = "".join(f"when {' | '.join(c)} => {below()} " for c in its[:-1])
        return f"case {x.name} is {arms}when {last} => {below()} end case;"

    def statement(self, s, sign, deep, whole):
        if s.kind in "ib":
            return Design.statement(self, s, sign, deep, whole)
        return super().statement(s, sign, deep, whole)

    def sets(self, x):
        return self.statement(x, ":=", 2, False) if x.kind in "ib" else super().sets(x)
