"""Random designs over integers that a run computes, as `--wide` reads them: `to_integer`, arithmetic and relations of integers, beside
vectors too, and elements and slices at computed places, read and written.

The design knows between which numbers each integer lies. Most stay in range by construction. Where one may leave it, GHDL would stop
and this program goes on with X: such a statement or relation stands as two texts between marks, the second with a condition for GHDL."""
import operator
import re
from typing import NamedTuple

from designs import LOGIC, ORDER, Design, Signal

LEAST, GREATEST = -(2**31), 2**31 - 1
SUMS = {"+": operator.add, "-": operator.sub, "*": operator.mul}


class Number(NamedTuple):
    """an integer's text, between which numbers it lies, and what has to hold, one after the other, so that it is one"""

    text: str
    least: int
    greatest: int
    guards: tuple = ()

    def is_within(self, least, greatest):
        return not self.conditions(least, greatest)

    def conditions(self, least, greatest):
        """what has to hold so that it lies between these"""
        return (f"{self.text} >= {least}",) * (self.least < least) + (f"{self.text} <= {greatest}",) * (self.greatest > greatest)


def either(plain, guarded):
    return f"«{plain}¦{guarded}»"


def ours(text):
    """as this program reads it"""
    return re.sub("«([^«»¦]*)¦[^«»¦]*»", r"\1", text)


def theirs(text):
    """as GHDL reads it"""
    return re.sub("«[^«»¦]*¦([^«»¦]*)»", r"\1", text)


def literal(n):
    return str(n) if n >= 0 else f"({n})"


def hull(numbers):
    return min(numbers), max(numbers)


class ComputedDesign(Design):
    def __init__(self, random_, top, depth=0):
        super().__init__(random_, top, depth)
        self.integers = [Number("n", 1, 6)] if depth else []  # constants and generics
        self.room = 2  # how many computed places may stand in one another here

    # integers

    def constants(self):
        super().constants()
        for _ in range(self.r.randint(0, 2)):
            name, n = self.fresh("c"), self.r.randint(-4, 9)
            self.decls.append(f"constant {name} : integer := {n};")
            self.integers.append(Number(name, n, n))

    def known_integer(self):
        if self.integers and self.chance(0.3):
            return self.r.choice(self.integers)
        n = self.r.choice([1, 2, 3, self.r.randint(-9, 9), self.r.randint(0, 40)])
        return Number(literal(n), n, n)

    def sources(self):
        """vectors to make integers of; an integer of constants alone would be a known one to GHDL"""
        return [s for s in self.of_kind("uv") if s.name[0] != "k"]

    def named(self, n):
        """a known integer as it is written: perhaps by a constant's name"""
        near = [c.text for c in self.integers if c.least == c.greatest == n]
        return self.r.choice(near) if near and self.chance(0.5) else literal(n)

    def read_integer(self, deep, most=5):
        x = self.r.choice(self.sources())
        n = self.r.randint(1, min(most, x.width))
        text = self.part_of(x, n)
        text = f"unsigned({text})" if x.kind == "v" else text
        if deep > 0 and self.chance(0.4):
            text = f"({text}) {self.r.choice(LOGIC + ['+', '-'])} ({self.vector('u', n, deep - 1)})"
        return Number(f"to_integer({text})", 0, 2**n - 1)

    def number(self, deep, may_fail=False):
        r, k = self.r, self.r.random()
        if deep <= 0 or k < 0.2:
            return self.read_integer(deep, 31 if may_fail and self.chance(0.1) else 5)
        x = self.number(deep - 1, may_fail)
        if k < 0.3:
            made = self.limited(f"(-{x.text})", (-x.greatest, -x.least), x)
        elif k < 0.4:
            ends = [abs(x.least), abs(x.greatest)] + [0] * (x.least < 0 < x.greatest)
            made = self.limited(f"(abs {x.text})", hull(ends), x)
        else:
            sides = [x, self.known_integer() if self.chance(0.5) else self.number(deep - 1, may_fail)]
            if self.chance(0.3):
                sides.reverse()
            made = self.combined(r.choice(["+", "-", "*", "+", "-", "/", "mod", "rem"]), *sides, may_fail)
        return made or x

    def limited(self, text, ends, *parts):
        """an operation's result, or None where it might be no integer"""
        if LEAST < ends[0] and ends[1] <= GREATEST:
            return Number(text, *ends, sum((p.guards for p in parts), ()))

    def combined(self, sign, x, y, may_fail):
        if sign in SUMS:
            if may_fail and sign in "+*" and min(x.least, y.least) >= 0 and self.chance(0.5):
                return self.overflowing(sign, x, y)
            ends = [SUMS[sign](a, b) for a in (x.least, x.greatest) for b in (y.least, y.greatest)]
            return self.limited(f"({x.text} {sign} {y.text})", hull(ends), x, y)
        if y.least <= 0 <= y.greatest:
            y = self.doubtful_divisor() if may_fail and self.chance(0.6) else self.divisor(y)
        size, most = max(-x.least, x.greatest), max(-y.least, y.greatest) - 1
        ends = {
            "/": (-size, size) if min(x.least, y.least) < 0 else (0, size // max(1, y.least)),
            "mod": (min(0, y.least + 1), max(0, y.greatest - 1)),
            "rem": (-min(most, size) if x.least < 0 else 0, min(most, size) if x.greatest > 0 else 0),
        }[sign]
        return self.limited(f"({x.text} {sign} {y.text})", ends, x, y)

    def divisor(self, y):
        """one that isn't 0"""
        m = self.r.randint(1, 9)
        if self.chance(0.3):
            return y._replace(text=f"(-1 - ({y.text} mod {m}))", least=-m, greatest=-1)
        return y._replace(text=f"({y.text} mod {m} + 1)", least=1, greatest=m)

    def doubtful_divisor(self):
        """one that may be 0, and may be another number whatever a generic is"""
        y = self.read_integer(0)
        return y._replace(guards=(f"{y.text} /= 0",))

    def overflowing(self, sign, x, y):
        """a sum or product of natural numbers that may be too great"""
        guard = f"{x.text} <= {GREATEST} - {y.text}" if sign == "+" else f"({y.text} = 0 or {x.text} <= {GREATEST} / {y.text})"
        return Number(f"({x.text} {sign} {y.text})", 0, GREATEST, x.guards + y.guards + (guard,))

    def below(self, count, deep=1):
        """an integer from 0 to count - 1"""
        r, j = self.r, self.number(deep)
        while j.guards:
            j = self.number(deep)
        if j.is_within(0, count - 1) and self.chance(0.8):
            return j
        forms = [f"({j.text} mod {count})", f"({count - 1} - {j.text} mod {count})", f"(abs ({j.text} rem {count}))"]
        if j.least >= 0:
            forms.append(f"({j.text} rem {count})")
        return Number(r.choice(forms), 0, count - 1)

    def natural(self, deep):
        j = self.number(deep)
        return j if j.least >= 0 else Number(f"(abs {j.text})", 0, max(-j.least, j.greatest), j.guards)

    # places

    def moved(self, j, n):
        """with a known integer added"""
        if n == 0:
            return j.text
        return self.r.choice([f"{j.text} + {n}", f"{n} + {j.text}", f"{j.text} - ({-n})"] if n > 0 else [f"{j.text} - {-n}"])

    def element_at(self, s):
        return f"{s.name}({self.moved(self.below(s.width), s.low)})"

    def linear(self, terms, rest):
        """a text of what these terms, each so often, and the rest add up to"""
        r, text = self.r, ""
        for factor, j in r.sample(terms, len(terms)):
            name = j.text.upper() if self.chance(0.1) else j.text
            if rest and rest % factor == 0 and self.chance(0.3):
                its, rest = f"({name} + {self.named(rest // factor)}) * {self.named(factor)}", 0
            elif factor == 1 and self.chance(0.8):
                its = name
            else:
                its = r.choice([f"{self.named(factor)} * {name}", f"{name} * {self.named(factor)}"])
            text += (" + " if text else "") + its
        if rest == 0:
            return text
        added = [f"{text} + {self.named(rest)}", f"{self.named(rest)} + {text}"]
        return r.choice([*added, f"{text} - {self.named(-rest)}", f"-({literal(-rest)} - ({text}))"])

    def terms(self, room):
        """terms with their factors, which add up to at most this"""
        r, out = self.r, []
        while room and (not out or self.chance(0.3)):
            factor = r.randint(1, min(room, 9))
            count = room // factor + 1
            if count > 3 and self.chance(0.2):
                split = r.randint(1, count - 1)
                x, y = self.below(split + 1), self.below((count - 1) // split + 1)
                j = Number(f"({x.text} * {y.text})", 0, x.greatest * y.greatest)
            else:
                j = self.below(r.randint(1, count), r.randrange(2))
            out.append((factor, j))
            room -= factor * j.greatest
        return out or [(1, self.below(1))], room

    def slice_at(self, s, width):
        """so many elements at a computed place"""
        terms, room = self.terms(s.width - width)
        least = s.low + self.r.randint(0, room)
        low, high = self.linear(terms, least), self.linear(terms, least + width - 1)
        return f"{s.name}({low} to {high})" if s.upward else f"{s.name}({high} downto {low})"

    # expressions

    def is_open(self, part):
        """whether something computed is to stand here"""
        return self.room and self.chance(part) and self.sources()

    def within(self, make, room=0):
        """with so much room for computed places in what is made"""
        self.room, before = min(self.room, room), self.room
        text = make()
        self.room = before
        return text

    def scalar(self, deep):
        near = self.of_kind("uv", 2) if self.is_open(0.12) else []
        if near:
            return self.within(lambda: self.element_at(self.r.choice(near)), self.room - 1)
        return super().scalar(deep)

    def part_of(self, s, width):
        if width < s.width and self.is_open(0.2):
            return self.within(lambda: self.slice_at(s, width), self.room - 1)
        return s.slice(self.r.randrange(s.width - width + 1), width)

    def part(self, kind, width):
        return self.part_of(self.r.choice(self.of_kind(kind, width)), width)

    def vector(self, kind, width, deep):
        r, k = self.r, self.r.random()
        if kind == "v" or deep <= 0 or not self.is_open(0.25):
            return super().vector(kind, width, deep)
        again = lambda n=width: self.vector("u", n, deep - 1)
        j = self.natural(deep - 1).text
        if k < 0.25:
            return f"to_unsigned({j}, {width})"
        if k < 0.5:
            return f"{r.choice(['shift_left', 'shift_right'])}({again()}, {j})"
        if k < 0.7 and width % 2 == 0:
            sides = [f"({again(width // 2)})", j]
            sign = "*"
        else:
            sides, sign = [f"({again()})", j], r.choice("+-")
        r.shuffle(sides)
        return f"({sides[0]} {sign} {sides[1]})"

    def truth(self, deep):
        r, k = self.r, self.r.random()
        if not self.is_open(0.3):
            return super().truth(deep)
        sign = r.choice(ORDER)
        may_fail = k > 0.7
        j = self.number(1, may_fail)
        if k < 0.8 and self.chance(0.5):
            j = j if may_fail else self.natural(1)
            x, y = r.sample([f"({self.vector('u', r.randint(1, 6), deep - 1)})", j.text], 2)
            return self.related(x, sign, y, j.guards + j.conditions(0, GREATEST))
        other = self.number(1, may_fail) if self.chance(0.6) else self.known_integer()
        return self.related(j.text, sign, other.text, j.guards + other.guards)

    def related(self, x, sign, y, guards):
        """a relation, which is false, or /= true, where an integer is none"""
        relation, whole = f"{x} {sign} {y}", " and ".join(guards)
        if not guards:
            return relation
        return either(relation, f"(not ({whole}) or {relation})" if sign == "/=" else f"({whole} and {relation})")

    # statements

    def written_at(self, s, sign):
        """an element or a slice at a computed place"""
        if self.chance(0.5):
            place, value = self.element_at(s), lambda: self.scalar(1)
        else:
            n = self.r.randint(1, s.width - 1)
            place, value = self.slice_at(s, n), lambda: self.slice_value(s.kind, n)
            if self.chance(0.2):
                return f"{place} {sign} (others => {self.scalar(1)});"
        if sign == "<=" and self.chance(0.2):
            other = f" else {value()}" if self.chance(0.5) else ""
            return f"{place} {sign} {value()} when {self.condition()}{other};"
        return f"{place} {sign} {value()};"

    def slice_value(self, kind, width):
        if width > 1 and self.chance(0.15):
            return f"({', '.join(self.scalar(0) for _ in range(width))})"
        return self.vector(kind, width, 1)

    def doubtful(self, s, sign):
        """a statement whose integer may be none that serves: there all of s is X"""
        j = min((self.number(2, True) for _ in range(4)), key=lambda j: j.greatest - j.least)
        near = [x for x in self.of_kind("uv", max(2, s.width)) if s.kind in ("s", x.kind)]
        forms = [self.made_of] * (s.kind == "u") + [self.put_at] * (s.width > 1) + [self.taken_at] * bool(near)
        if not forms:
            return self.assign(s, sign)
        target, value, least, greatest = self.r.choice(forms)(s, j, near)
        text, unknown = f"{target} {sign} {value};", "'X'" if s.kind == "s" else "(others => 'X')"
        guards = j.guards + j.conditions(least, greatest)
        return either(text, f"if {' and '.join(guards)} then {text} else {s.name} {sign} {unknown}; end if;") if guards else text

    def made_of(self, s, j, near):
        x = self.vector("u", s.width, 1)
        shifted = f"{self.r.choice(['shift_left', 'shift_right'])}({x}, {j.text})"
        made = [f"to_unsigned({j.text}, {s.width})", shifted, f"({x}) + {j.text}", f"{j.text} - ({x})"]
        return s.name, self.r.choice(made), 0, GREATEST

    def put_at(self, s, j, near):
        n = 1 if self.chance(0.6) else self.r.randint(1, s.width)
        value = self.scalar(1) if n == 1 else self.vector(s.kind, n, 1)
        return self.stretch(s, j, n) if n > 1 else f"{s.name}({j.text})", value, s.low, s.low + s.width - n

    def taken_at(self, s, j, near):
        x = self.r.choice(near)
        return s.name, f"{x.name}({j.text})" if s.kind == "s" else self.stretch(x, j, s.width), x.low, x.low + x.width - s.width

    def stretch(self, s, j, width):
        """so many elements from this least index on"""
        low, high = self.moved(j, 0), self.moved(j, width - 1)
        return f"{s.name}({low} to {high})" if s.upward else f"{s.name}({high} downto {low})"

    def statement(self, s, sign, deep, whole):
        if s.kind == "e" or "(" in s.name or not self.is_open(0.3):
            return super().statement(s, sign, deep, whole)
        first = f"{self.assign(s, sign)} " if whole else ""
        if self.chance(0.4):
            return first + self.doubtful(s, sign)
        return first + (self.written_at(s, sign) if s.width > 1 else self.assign(s, sign))

    def turns(self, s, sign):
        near = self.of_kind("uv", 2)
        if s.kind not in "uv" or not near or not self.is_open(0.6):
            return super().turns(s, sign)
        x, j = self.r.choice(near), self.number(1)
        at = self.moved(Number(f"(({j.text} {self.r.choice('+-')} i) mod {x.width})", 0, x.width - 1), x.low)
        return f"for i in 0 to {s.width - 1} loop {s.at('i')} {sign} {x.name}({at}) {self.r.choice(LOGIC)} {self.scalar(1)}; end loop;"

    def clocked(self, mine):
        k = self.r.random()
        if k < 0.3:
            return self.keeps(*self.clock(), mine)
        return self.written(*self.clock(), mine) if k < 0.5 else super().clocked(mine)

    def clock(self):
        clock, rising = self.r.choice(["clk", "clk", "ck2"]), self.chance(0.7)
        self.edges.add((clock, rising))
        return clock, rising

    def reads(self, text):
        return super().reads(text.lower())

    # declarations and instances

    def placed(self, s):
        if s.kind in "uv" and s.name[0] != "i" and self.chance(0.3):
            s.low = self.r.randint(1, 6)
        return s

    def any(self, out=False, start=False):
        if self.depth == 0 and self.chance(0.15):
            return self.declare(self.r.choice("uv"), self.r.randint(16, 64), out, start)
        return super().any(out, start)

    def actual(self, port):
        return self.within(lambda: super(ComputedDesign, self).actual(port))
