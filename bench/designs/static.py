"""Random designs with static names as `--wide` reads them: beside ranges by name, aggregates, qualified expressions, constants of any
value, declarations and conditional assignments in processes."""
import re

from designs import LETTERS, LOGIC, Signal
from static_names import TYPES, NamesDesign, shifted


class StaticDesign(NamesDesign):
    # static values

    def letter(self):
        near = [] if self.bare else self.constants_of("suv")
        if near and self.chance(0.4):
            k = self.r.choice(near)
            return k.name if k.kind == "s" else self.rewritten(k.element(self.r.randrange(k.width)))
        return f"'{self.r.choice(LETTERS)}'"

    def string(self, width):
        return '"%s"' % "".join(self.r.choice(LETTERS) for _ in range(width))

    def constants_of(self, kinds, least=1):
        return [s for s in self.of_kind(kinds, least) if s.name[0] == "k"]

    def static(self, s, deep=1):
        """a value of a signal's or constant's type that names no signal"""
        r, k, near = self.r, self.r.random(), [] if self.bare else self.constants_of(s.kind, s.width)
        if s.kind == "s":
            if deep and k < 0.3:
                return f"{self.letter()} {r.choice(LOGIC)} {self.letter()}"
            return self.letter()
        if k < 0.3 or s.width == 1:
            return self.string(s.width)
        if k < 0.65 or deep == 0:
            same = [] if self.bare else self.constants_of(s.kind, s.width)
            x = r.choice(same) if same else None
            return self.aggregate(s, self.letter, x and (lambda width: self.rewritten(x.slice(r.randrange(x.width - width + 1), width))), True)
        if k < 0.75 and near:
            x = r.choice(near)
            return self.rewritten(x.slice(r.randrange(x.width - s.width + 1), s.width))
        operand = lambda: self.qualified(s, self.letter, lambda: self.string(s.width))
        if k < 0.85:
            return f"not {operand()}"
        if k < 0.93 or s.kind == "v":
            return f"{operand()} {r.choice(LOGIC)} {operand()}"
        return f"to_unsigned({self.number(r.randrange(1 << min(s.width, 6)))}, {self.number(s.width)})"

    def literal(self, s):
        return super().literal(s) if s.kind == "e" else self.static(s)

    # aggregates and qualified expressions

    def choice(self, low, high, is_alone):
        """a choice of these indexes"""
        if low == high and self.chance(0.7):
            return self.number(low, not is_alone)
        upward = self.chance(0.5)
        left, right = (low, high) if upward else (high, low)
        # GHDL 2.0 ends on 'reverse_range as a choice
        return self.span(left, right, upward, not is_alone, False, True)

    def aggregate(self, s, element, vector=None, is_static=False, is_free=False):
        """of the type of this signal; elements by element(), vectors among listed ones by vector(width)"""
        r, n, k = self.r, s.width, self.r.random()
        if k < 0.45 and n > 1:
            parts, left = [], n if is_free or self.chance(0.6) else r.randint(1, n - 1)
            whole = left == n
            while left:
                # GHDL 2.0 ends on several vectors in one aggregate
                width = r.randint(2, min(left, n - 1)) if vector and min(left, n - 1) > 1 and self.chance(0.15) else 1
                listed, vector = vector, None if width > 1 else vector
                parts.append(listed(width) if width > 1 else element())
                left -= width
            return f"({', '.join(parts + ([] if whole else [f'others => {element()}']))})"
        groups, at = [], s.low
        while at < s.low + n:
            last = r.randint(at, s.low + n - 1) if self.chance(0.4) else at
            groups.append((at, last))
            at = last + 1
        if len(groups) == 1 or (k > 0.9 and not is_free):
            return f"({self.choice(s.low, s.low + n - 1, True)} => {element()})"
        r.shuffle(groups)
        kept = groups if is_free or self.chance(0.4) else groups[: r.randint(1, len(groups) - 1)]
        parts, texts = [self.choice(*g, False) for g in kept], []
        while parts:
            # GHDL 2.0 ends on several choices of one element that isn't static
            many = 2 if is_static and len(parts) > 1 and self.chance(0.2) else 1
            value = f"'{r.choice(LETTERS)}'" if many > 1 else element()
            texts.append(f"{' | '.join(parts[:many])} => {value}")
            parts = parts[many:]
        if any(" | " in t for t in texts):
            element = lambda: f"'{r.choice(LETTERS)}'"
            texts = [t.split(" => ")[0] + f" => {element()}" for t in texts]
        return f"({', '.join(texts + ([] if kept is groups else [f'others => {element()}']))})"

    def plain_subtype(self, kind, width):
        """that is declared with what is in sight everywhere"""
        self.inside, inside, self.bare, bare = False, self.inside, True, self.bare
        t = self.subtype(self.placed(Signal("", kind, width, self.chance(0.3))))
        self.inside, self.bare = inside, bare
        return t

    def qualified(self, s, element, vector):
        """of a vector of this kind and width"""
        if self.chance(0.5) or self.bare:
            if s.width > 1 and self.chance(0.6):
                low = self.r.randint(0, 4)
                return f"{TYPES[s.kind]}'{self.aggregate(Signal('', s.kind, s.width, True, None, low), element, None, False, True)}"
            return f"{TYPES[s.kind]}'({vector()})"
        t = self.plain_subtype(s.kind, s.width)
        if self.chance(0.6):
            return f"{t.name}'{self.aggregate(t, element)}"
        return f"{t.name}'({vector()})"

    # expressions and statements

    def part(self, kind, width):
        return self.rewritten(super().part(kind, width))

    def scalar(self, deep):
        if deep > 0 and self.chance(0.04):
            return f"std_logic'({self.scalar(deep - 1)})"
        return self.rewritten(super().scalar(deep))

    def vector(self, kind, width, deep):
        if deep > 0 and self.chance(0.12):
            return self.qualified(Signal("", kind, width), lambda: self.scalar(deep - 1), lambda: self.vector(kind, width, deep - 1))
        return super().vector(kind, width, deep)

    def value(self, s, deep=2):
        if s.kind in "uv" and s.name and "(" not in s.name and self.chance(0.35):
            return self.aggregate(s, lambda: self.scalar(deep - 1), lambda width: self.listed(s.kind, width))
        return super().value(s, deep)

    def listed(self, kind, width):
        """a vector among an aggregate's elements; GHDL 2.0 ends on any that is no name or aggregate of a subtype"""
        if width > 1 and (self.chance(0.4) or not self.of_kind(kind, width)):
            t = self.plain_subtype(kind, width)
            return f"{t.name}'{self.aggregate(t, lambda: self.scalar(0))}"
        return self.part(kind, width)

    def truth(self, deep):
        n, kind = self.r.randint(2, 5), self.r.choice("uv")
        if self.chance(0.15) and self.of_kind(kind, n):
            free = Signal("", kind, n, True, None, self.r.randint(0, 6))
            sides = [self.part(kind, n), self.aggregate(free, lambda: self.scalar(0), None, False, True)]
            self.r.shuffle(sides)
            return f"{sides[0]} {self.r.choice(['=', '/='])} {sides[1]}"
        if self.truths and self.chance(0.05):
            return self.r.choice(self.truths)[0]
        return super().truth(deep)

    def statement(self, s, sign, deep, whole):
        if not self.chance(0.15):
            return super().statement(s, sign, deep, whole)
        text = f"{s.name} {sign} {self.value(s)} when {self.condition()}"
        for _ in range(self.r.randint(0, 1)):
            text += f" else {self.value(s)} when {self.condition()}"
        return f"{text} else {self.value(s)};" if whole or self.chance(0.5) else text + ";"

    def turns(self, s, sign):
        near = self.of_kind("uv", s.width)
        if s.kind not in "uv" or not near or self.chance(0.3):
            return super().turns(s, sign)
        x, (left, right) = self.r.choice(near), s.ends()
        value = f"{x.name}({shifted('i', s.low, x.low)}) {self.r.choice(LOGIC)} {self.scalar(1)}"
        return f"for i in {self.span(left, right, s.upward)} loop {s.name}(i) {sign} {value}; end loop;"

    def concurrent(self, s):
        r, near = self.r, self.of_kind("uv", s.width)
        if s.kind in "uv" and near and self.chance(0.15):
            x, (left, right) = r.choice(near), s.ends()
            value = f"{x.name}({shifted('i', s.low, x.low)}) {r.choice(LOGIC)} {self.scalar(1)}"
            return f"{self.fresh('g')}: for i in {self.span(left, right, s.upward)} generate {s.name}(i) <= {value}; end generate;"
        names = [n for n, _ in self.truths] + [g[2] for g in self.given if g[0] == "f"]
        if names and self.chance(0.15):
            name = r.choice(names)
            arms = [(name, self.assign(s, "<=")), (f"not {name}", self.process([s]))]
            return " ".join(f"{self.fresh('h')}: if {c} generate {a} end generate;" for c, a in arms)
        return super().concurrent(s)

    def reads(self, text):
        return super().reads(re.sub(r"\b\w+(\([^()]*\))?'(left|right|high|low|length|range|reverse_range)\b", "", text))

    # declarations in processes

    def variables(self):
        """first constants, subtypes and types, and variables of these"""
        r, types, outside, self.spot, mine = self.r, self.types, self.spot, [], []
        self.inside = False
        self.declared(2)
        if self.chance(0.15):
            self.types = types + [[self.fresh("t")] + [self.fresh("w") for _ in range(r.randint(2, 4))]]
            self.spot.append("type {} is ({});".format(self.types[-1][0], ", ".join(self.types[-1][1:])))
        if self.chance(0.2):
            k = self.placed(Signal(self.fresh("k"), r.choice("uv"), r.randint(2, 6), self.chance(0.3)))
            written = self.type_of(k)
            self.spot.append(f"constant {k.name} : {written} := {self.literal(k)};")
            self.known, mine = self.known + [k], [k]
        decls, text, vs = super().variables()
        spot = self.spot
        self.types, self.spot, self.inside = types, outside, True
        return "".join(d + " " for d in spot) + decls, text, mine + vs

    def alone(self, make):
        """what a process declares is in sight in it alone; GHDL 2.0 finds no sensitivity of a variable's conditional assignment"""
        kept = self.subtypes[:], self.numbers[:], self.marks[:], self.truths[:]
        while True:
            text = make()
            self.subtypes, self.numbers, self.marks, self.truths = (list(it) for it in kept)
            if not ("(all)" in text and re.search(r":= [^;]* when ", text)):
                return text

    def process(self, targets):
        return self.alone(lambda: self.listed_for(super(StaticDesign, self).process(targets)))

    def listed_for(self, text):
        """with what it reads in place of all, where GHDL asks for it"""
        reads = self.reads(text) if re.search(r":= [^;]* when ", text) else []
        return text.replace("(all)", f"({', '.join(reads)})", 1) if reads else text

    def clocked(self, mine):
        return self.alone(lambda: super(StaticDesign, self).clocked(mine))
