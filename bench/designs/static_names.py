"""Random designs' static integers, ranges and declarations as `--wide` reads them: subtypes, attributes, powers, constants and generics.
Where a name says how much it is, the design knows it, so that every range, choice and index fits by construction."""
import re

from designs import Design, Signal

TYPES = {"s": "std_logic", "v": "std_logic_vector", "u": "unsigned"}


def shifted(name, value, wanted):
    if value == wanted:
        return name
    return f"{name} - {value - wanted}" if value > wanted else f"{name} + {wanted - value}"


class NamesDesign(Design):
    above = None  # the design that an instance is made in

    def __init__(self, random_, top, depth=0):
        super().__init__(random_, top, depth)
        self.numbers = []  # constants and generics: name, value, whether locally static
        self.marks = []  # subtypes of integers: name, bounds from the left, whether locally static
        self.subtypes = []  # of vectors, as signals of these names
        self.truths = []  # boolean constants: name, value
        self.given = []  # generics: what it is (w an integer, k a value, f boolean), declaration, name, and the integer or signal
        self.generic_objects = []
        self.ports = {}  # types of in ports, as they are written
        self.spot = self.decls  # where a declaration goes
        self.bare = False  # whether nothing that is declared is in sight
        self.inside = True  # whether what is written stands behind the declarations of the process

    # static integers and ranges

    def objects(self, is_local):
        """vectors whose declarations are in sight"""
        letters = "iynkv" if self.inside else "iynk"
        return [s for s in self.of_kind("uv") if s.name[0] in letters and (not is_local or s.is_local)]

    def attribute(self, is_local):
        """an attribute of something, and its value, or None"""
        r, near = self.r, self.objects(is_local) + [t for t in self.subtypes if not is_local or t.is_local]
        marks = [m for m in self.marks if not is_local or m[3]]
        if marks and (not near or self.chance(0.3)):
            name, left, right, _ = r.choice(marks)
            which = r.choice(["left", "right", "high", "low"])
            return f"{name}'{which}", {"left": left, "right": right, "high": max(left, right), "low": min(left, right)}[which]
        if not near:
            return None
        x = r.choice(near)
        name = x.name
        if x.width > 1 and x not in self.subtypes and self.chance(0.25):
            width = r.randint(1, x.width - 1)
            right = r.randrange(x.width - width + 1)
            name = x.slice(right, width)
            x = Signal("", x.kind, width, x.upward, None, x.low + (x.width - right - width if x.upward else right))
        left, right = x.ends()
        which = r.choice(["left", "right", "high", "low", "length", "length"])
        return f"{name}'{which}", {"left": left, "right": right, "high": max(left, right), "low": min(left, right), "length": x.width}[which]

    def number(self, n, is_local=False):
        """an expression of this value, which is at least 0"""
        r, k = self.r, self.r.randrange(9)
        near = [] if self.bare else [x for x in self.numbers if x[2] or not is_local]
        if k == 0 and near:
            name, value, _ = r.choice(near)
            return shifted(name, value, n)
        if k in (1, 2) and not self.bare:
            found = self.attribute(is_local)
            return shifted(*found, n) if found else str(n)
        if k == 3 and n > 0:
            base = r.choice([2, 2, 3])
            power = max(e for e in range(8) if base**e <= n)
            return shifted(f"{base} ** {power}", base**power, n)
        if k == 4:
            m = r.randint(1, 9)
            return r.choice([f"abs (-{n})", f"abs ({m} - {m + n})", shifted(f"(-{m}) ** 2", m * m, n), f"{n * m} / {m}", f"{n} mod {n + m}"])
        return str(n)

    def span(self, left, right, upward, is_local=False, behind_range=False, is_choice=False):
        """a range with these bounds and this direction, perhaps by name"""
        if not self.bare and not behind_range and left != right and self.chance(0.06):
            name = self.fresh("z")
            self.spot.append(f"subtype {name} is natural range {left} {'to' if upward else 'downto'} {right};")
            self.marks.append((name, left, right, True))
            return name
        near = [] if self.bare else self.objects(is_local) + ([] if behind_range else self.marks_as_signals(is_local))
        near = [s for s in near if {*s.ends()} == {left, right} and (s.upward == upward or not is_choice)]
        if near and self.chance(0.7):
            x = self.r.choice(near)
            if x.name in [m[0] for m in self.marks]:
                if x.upward == upward:
                    return x.name
            else:
                return f"{x.name}'{'range' if x.upward == upward else 'reverse_range'}"
        return f"{self.number(left, is_local)} {'to' if upward else 'downto'} {self.number(right, is_local)}"

    def marks_as_signals(self, is_local):
        return [Signal(n, "i", abs(a - b) + 1, a <= b, None, min(a, b)) for n, a, b, it in self.marks if it or not is_local]

    def rewritten(self, text):
        """a slice or an element, with its bounds written anew"""
        m = re.fullmatch(r"(\w+)\((\d+)(?: (to|downto) (\d+))?\)", text)
        if not m or self.chance(0.3):
            return text
        name, left, way, right = m.groups()
        if way:
            return f"{name}({self.span(int(left), int(right), way == 'to')})"
        return f"{name}({self.number(int(left))})"

    # declarations

    def placed(self, s):
        if s.kind in "uv" and self.chance(0.4):
            s.low = self.r.randint(1, 6)
        if s.name[:1] == "i":
            self.ports[s] = self.type_of_port(s)
        return s

    def ranged(self, s):
        """a type with the range of this signal, of which is told whether it's locally static"""
        left, right = s.ends()
        written = self.span(left, right, s.upward)
        s.is_local = not any(re.search(rf"\b{name}\b", written) for name in self.outer())
        return f"{TYPES[s.kind]}({written})"

    def outer(self):
        """names that aren't locally static"""
        return (
            [n for n, _, it in self.numbers if not it]
            + [m[0] for m in self.marks if not m[3]]
            + [t.name for t in self.subtypes if not t.is_local]
            + [s.name for s in self.known if not s.is_local]
        )

    def subtype(self, s):
        """a subtype of vectors with the range of this signal: one that there is, or a new one, perhaps of a subtype"""
        same = [t for t in self.subtypes if (t.kind, t.ends(), t.upward) == (s.kind, s.ends(), s.upward)]
        if same and self.chance(0.6):
            return self.r.choice(same)
        t = Signal(self.fresh("t"), s.kind, s.width, s.upward, None, s.low)
        if same and self.chance(0.7):
            base = self.r.choice(same)
            t.is_local, written = base.is_local, base.name
        elif self.chance(0.2):
            base = self.fresh("t")
            self.spot.append(f"subtype {base} is {TYPES[s.kind]};")
            written = self.ranged(t).replace(TYPES[s.kind], base, 1)
        else:
            written = self.ranged(t)
        self.spot.append(f"subtype {t.name} is {written};")
        self.subtypes.append(t)
        return t

    def type_of(self, s):
        if s.kind == "e":
            if self.chance(0.2):
                name = self.fresh("t")
                self.spot.append(f"subtype {name} is {s.words[0]};")
                return name
            return s.type()
        if s.kind == "s":
            return "std_logic"
        if self.chance(0.5):
            t = self.subtype(s)
            s.is_local = t.is_local
            return t.name
        return self.ranged(s)

    def type_of_port(self, s):
        if s in self.ports:
            return self.ports[s]
        self.bare, bare = True, self.bare
        near = [g for g in self.given if g[0].startswith("w")]
        written = self.ranged(s) if s.kind in "uv" else s.type()
        self.bare = bare
        if near and s.kind in "uv" and self.chance(0.4):
            name, value = self.r.choice(near)[2:4]
            left, right = s.ends()
            written = f"{TYPES[s.kind]}({shifted(name, value, left)} {'to' if s.upward else 'downto'} {shifted(name, value, right)})"
            s.is_local = False
        return written

    def number_constant(self, letter):
        r, value = self.r, self.r.randint(0, 9)
        name, written = self.fresh(letter), self.number(value)
        is_local = not any(re.search(rf"\b{n}\b", written) for n in self.outer())
        inside = [m for m in self.marks if min(m[1:3]) <= value <= max(m[1:3])]
        if inside and self.chance(0.5):
            mark = r.choice(inside)
            kind, is_local = mark[0], is_local and mark[3]
        else:
            kind = r.choice(["natural", "integer", f"natural range 0 to {value + r.randint(0, 5)}"])
        self.spot.append(f"constant {name} : {kind} := {written};")
        self.numbers.append((name, value, is_local))

    def mark(self):
        """a subtype of integers, perhaps of one that there is"""
        r, name = self.r, self.fresh("z")
        if self.marks and self.chance(0.4):
            base, left, right, is_local = r.choice(self.marks)
            low, high = sorted(r.choice(range(min(left, right), max(left, right) + 1)) for _ in "ab")
        else:
            base, low, is_local = r.choice(["natural", "integer"]), r.randint(0, 6), True
            high = low + r.randint(0, 8)
        upward = low == high or self.chance(0.7)
        left, right = (low, high) if upward else (high, low)
        written = self.span(left, right, upward, False, True)
        is_local = is_local and not any(re.search(rf"\b{n}\b", written) for n in self.outer())
        self.spot.append(f"subtype {name} is {base} range {written};")
        self.marks.append((name, left, right, is_local))

    def test(self, value, deep=1):
        """a truth over static integers"""
        r, k = self.r, self.r.random()
        near = [n for n, v in self.truths if v == value]
        if near and k < 0.3:
            return r.choice(near)
        if deep and k < 0.5:
            return f"not ({self.test(not value, deep - 1)})"
        if deep and k < 0.7:
            word, other = ("and", True) if value else ("or", False)
            return f"({self.test(value, deep - 1)}) {word} ({self.test(other, deep - 1)})"
        if k < 0.75:
            return str(value).lower()
        a, b = r.randrange(9), r.randrange(9)
        sign = r.choice([s for s, it in (("=", a == b), ("/=", a != b), ("<", a < b), (">=", a >= b)) if it == value])
        return f"{self.number(a)} {sign} {self.number(b)}"

    def truth_constant(self):
        value = self.chance(0.5)
        name, written = self.fresh("f"), self.test(value)
        self.spot.append(f"constant {name} : boolean := {written};")
        self.truths.append((name, value))

    def declared(self, most):
        """static integers, truths and subtypes of integers"""
        for _ in range(self.r.randint(0, most)):
            self.r.choice([lambda: self.number_constant("c"), self.mark, self.truth_constant])()

    def constants(self):
        self.known = self.known + [s for s in self.generic_objects]
        super().constants()
        for kind in self.r.choices("svu", k=self.r.randint(0, 3)):
            k = self.placed(Signal(self.fresh("k"), kind, 1 if kind == "s" else self.r.randint(2, 9), self.chance(0.3)))
            written = self.type_of(k)
            self.decls.append(f"constant {k.name} : {written} := {self.literal(k)};")
            self.known = self.known + [k]

    def make(self, wild=False):
        """the generics, whose actuals an instance gives with the same width, and first declarations"""
        r, self.bare = self.r, True
        if self.chance(0.4):
            name, value = self.fresh("w"), r.randint(1, 7)
            mark = r.choice(["natural", "positive", "natural range 1 to 9"])
            self.given.append(("w", f"{name} : {mark} := {self.number(value)}", name, value))
            self.numbers.append((name, value, False))
        for kind in r.choices("svu", k=r.randint(0, 3 if self.depth else 1)):
            k = self.placed(Signal(self.fresh("k"), kind, 1 if kind == "s" else r.randint(2, 6), self.chance(0.3)))
            written = self.ranged(k) if kind != "s" else "std_logic"
            self.given.append(("k", f"{k.name} : {written} := {self.literal(k)}", k.name, k))
            k.is_local = False
            self.generic_objects.append(k)
        if self.chance(0.4):
            name = self.fresh("f")
            self.given.append(("f", f"{name} : boolean := {self.test(self.chance(0.5))}", name, None))
        self.bare = False
        self.declared(5)
        return super().make(wild)

    def generics(self):
        return super().generics() + [g[1] for g in self.given]

    def text(self):
        self.bare = True
        return super().text()

    def child(self):
        outside, NamesDesign.above = NamesDesign.above, self
        super().child()
        NamesDesign.above = outside

    def generic_map(self):
        """of an instance of this design, written with what is in sight above"""
        above, made = NamesDesign.above, []
        number = super().generic_map()
        named = [f"n => {re.sub('^n => ', '', it)}" for it in number]
        for letter, _, name, value in self.given:
            if not self.chance(0.6):
                continue
            if letter == "w":
                made.append(f"{name} => {above.number(value)}")
            elif letter == "f":
                made.append(f"{name} => {above.test(self.chance(0.5))}")
            else:
                made.append(f"{name} => {above.static(value)}")
        return named + made
