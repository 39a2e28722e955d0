"""Random designs of the subset. By construction a design has no loop and gives each target a value on each path; where it
is to have a fault, Design.faults says which."""
import re

HEAD = "library ieee; use ieee.std_logic_1164.all; use ieee.numeric_std.all;\n"
LOGIC = ["and", "or", "xor", "nand", "nor", "xnor"]
ORDER = ["=", "/=", "<", "<=", ">", ">="]
LETTERS = "01010101LHXZ"  # of the literals
IDLE = "ZZZZ-LHW"  # what a driver that rests gives
WIDE = False  # whether registers are written as `--wide` reads them
NETS = False  # whether processes are put together, so that they are loops, in which no net looks at itself
RESETS = False  # whether resets are made inside, and stand behind the edge
KEPT = False  # whether clocked processes keep variables


class Signal:
    """kind: s one element, v std_logic_vector, u unsigned, e an enumeration, whose literals stand in words; low: a vector's least index"""

    def __init__(self, name, kind, width, upward=False, words=None, low=0):
        self.name, self.kind, self.width, self.upward, self.words, self.low = name, kind, width, upward, words, low
        self.is_local = True  # whether its range is locally static

    def drawn(self, r, letters):
        """a value of it, as a stimulus has it"""
        return "".join(r.choice(letters) for _ in range(self.width))

    def quoted(self, value):
        """that value as VHDL has it"""
        return f"'{value}'" if self.kind == "s" else f'"{value}"'

    def ends(self):
        both = self.low, self.low + self.width - 1
        return both if self.upward else both[::-1]

    def type(self):
        if self.kind == "s":
            return "std_logic"
        if self.kind == "e":
            return self.words[0]
        left, right = self.ends()
        return f"{'std_logic_vector' if self.kind == 'v' else 'unsigned'}({left} {'to' if self.upward else 'downto'} {right})"

    def at(self, text):
        """the element of which the text counts from the least index"""
        return f"{self.name}({text} + {self.low})" if self.low else f"{self.name}({text})"

    def element(self, right):
        return f"{self.name}({self.low + (self.width - 1 - right if self.upward else right)})"

    def slice(self, right, width):
        if width == self.width:
            return self.name
        if self.upward:
            return f"{self.name}({self.low + self.width - right - width} to {self.low + self.width - right - 1})"
        return f"{self.name}({self.low + right + width - 1} downto {self.low + right})"


class Design:
    def __init__(self, random_, top, depth=0):
        self.r, self.top, self.depth, self.count = random_, top, depth, 0
        self.known, self.shown, self.faults, self.edges, self.types = [], [], set(), set(), []
        self.keeping = []  # labels of processes, each with the variables that it keeps
        self.decls, self.body, self.units, self.ins, self.outs = [], [], [], [], []
        self.resets = [("rst", "01")]  # what may reset, and by which values
        self.out_ports = []

    def fresh(self, letter):
        self.count += 1
        return f"{letter}{self.count}"

    def chance(self, part):
        return self.r.random() < part

    def of_kind(self, kinds, least=1):
        return [s for s in self.known if s.kind in kinds and s.width >= least]

    # how what is declared is written

    def placed(self, s):
        return s

    def type_of(self, s):
        return s.type()

    def type_of_port(self, s):
        return s.type()

    def constants(self):
        for kind in "suv" if self.chance(0.3) else "":
            k = self.placed(Signal(self.fresh("k"), kind, 1 if kind == "s" else self.r.randint(1, 9), self.chance(0.3)))
            self.decls.append("constant {} : {} := {};".format(k.name, self.type_of(k), self.literal(k)))
            self.known = self.known + [k]

    def generics(self):
        return [f"n : natural := {self.r.randrange(1, 5)}"] if self.depth else []

    def generic_map(self):
        """of an instance of this design"""
        return [f'{self.r.choice(["", "n => "])}{self.r.randrange(1, 7)}'] if self.chance(0.5) else []

    # expressions over what is known so far

    def literal(self, s):
        if s.kind == "e":
            return self.r.choice(s.words[1:])
        return ("'%s'" if s.kind == "s" else '"%s"') % "".join(self.r.choice(LETTERS) for _ in range(s.width))

    def scalar(self, deep):
        r, k = self.r, self.r.random()
        if deep <= 0 or k < 0.35:
            s = r.choice(self.of_kind("suv"))
            return s.name if s.kind == "s" else s.element(r.randrange(s.width))
        if k < 0.5:
            return f"not ({self.scalar(deep - 1)})"
        if k < 0.53:
            return "(({}) xor '{}')".format(self.scalar(deep - 1), r.choice("01HX"))
        return "(({}) {} ({}))".format(self.scalar(deep - 1), r.choice(LOGIC), self.scalar(deep - 1))

    def part(self, kind, width):
        s = self.r.choice(self.of_kind(kind, width))
        return s.slice(self.r.randrange(s.width - width + 1), width)

    def leaf(self, kind, width):
        r = self.r
        if self.of_kind(kind, width) and self.chance(0.9):
            return self.part(kind, width)
        other = "v" if kind == "u" else "u"
        if self.of_kind(other, width):
            return "{}({})".format("unsigned" if kind == "u" else "std_logic_vector", self.part(other, width))
        if kind == "u":
            return f"to_unsigned({r.randrange(1 << min(width, 20))}, {width})"
        return f'"{"".join(r.choice("01") for _ in range(width))}"'

    def vector(self, kind, width, deep):
        r, k = self.r, self.r.random()
        if deep <= 0 or k < 0.3:
            return self.leaf(kind, width)
        again = lambda n=width: self.vector(kind, n, deep - 1)
        if k < 0.4:
            return f"not ({again()})"
        if k < 0.5:
            return "(({}) {} ({}))".format(again(), r.choice(LOGIC), again())
        if k < 0.6 and width > 1:
            n = r.randrange(1, width)
            return "(({}) & ({}))".format(self.scalar(deep - 1) if n == 1 and self.chance(0.5) else again(n), again(width - n))
        if kind == "v":
            return f'std_logic_vector({self.vector("u", width, deep - 1)})'
        if k < 0.65 and self.of_kind("v", width):
            return f'unsigned({self.part("v", width)})'
        if k < 0.72:
            return f"resize({again(r.randint(1, 12))}, {width})"
        if k < 0.78:
            return f'{r.choice(["shift_left", "shift_right"])}({again()}, {r.randrange(width + 2)})'
        number = r.randrange(1 << min(width, 20))
        if k < 0.83 and width % 2 == 0:
            if self.chance(0.3):
                return f"({number} * ({again(width // 2)}))"
            return "(({}) * ({}))".format(again(width // 2), again(width // 2))
        if k < 0.87:
            return f'(({again()}) {r.choice("+-")} {number})'
        if k < 0.9:
            return f'({number} {r.choice("+-")} ({again()}))'
        return "(({}) {} ({}))".format(again(), r.choice("+-"), again(r.randint(1, width)))

    def value(self, s, deep=2):
        if s.kind == "s":
            return self.scalar(deep)
        if s.kind != "e":
            return self.vector(s.kind, s.width, deep)
        same = [x.name for x in self.of_kind("e") if x.words is s.words]
        return self.r.choice(same) if same and self.chance(0.4) else self.r.choice(s.words[1:])

    def condition(self, deep=1):
        k = self.r.random()
        if k < 0.15:
            return self.scalar(deep)
        if k < 0.3:
            return "({}) {} ({})".format(self.truth(deep - 1), self.r.choice(["and", "or", "nand"]), self.truth(deep - 1))
        return self.truth(deep)

    def truth(self, deep):
        r, k, n = self.r, self.r.random(), self.r.randint(1, 6)
        if k < 0.2 and self.of_kind("e"):
            s = r.choice(self.of_kind("e"))
            return "{} {} {}".format(s.name, r.choice(["=", "/="]), r.choice(s.words[1:]))
        if k < 0.45:
            return "({}) {} '{}'".format(self.scalar(deep), r.choice(["=", "=", "/="]), r.choice("0101HZ"))
        if k < 0.6 and self.of_kind("v", n):
            right = f'"{"".join(r.choice("0101X") for _ in range(n))}"' if self.chance(0.3) else self.vector("v", n, deep)
            return "{} {} {}".format(self.part("v", n), r.choice(["=", "/="]), right)
        if k < 0.65:
            return f'{r.randrange(20)} {r.choice(ORDER)} ({self.vector("u", n, deep)})'
        if k < 0.85:
            return "({}) {} ({})".format(self.vector("u", n, deep), r.choice(ORDER), self.vector("u", r.choice([n, r.randint(1, 6)]), deep))
        return f'({self.vector("u", n, deep)}) {r.choice(ORDER)} {r.randrange(70)}'

    # statements

    def assign(self, s, sign, deep=2):
        return "{} {} {};".format(s.name, sign, self.value(s, deep))

    def choose(self, s, sign, deep, whole):
        """a case: on an enumeration, one element or a slice"""
        r, k = self.r, self.r.random()
        below = lambda: self.statement(s, sign, deep - 1, whole)
        if k < 0.5 and self.of_kind("e"):
            x = r.choice(self.of_kind("e"))
            words, alts = r.sample(x.words[1:], len(x.words) - 1), ""
            left = words if self.chance(0.5) else words[: r.randint(1, len(words))]
            full = len(left) == len(words)
            while left:
                n = r.randint(1, min(2, len(left)))
                alts += "when {} => {} ".format(" | ".join(left[:n]), below())
                left = left[n:]
            return "case {} is {}end case;".format(x.name, alts + ("" if full else f"when others => {below()} "))
        n = r.randint(1, 3)
        near = self.of_kind("uv", n)
        if not near or k > 0.9:
            return "case {} is when '0' | 'L' => {} when '1' => {} when others => {} end case;".format(self.scalar(0), below(), below(), below())
        x = r.choice(near)
        alts = "".join('when "{}" => {} '.format(format(v, f"0{n}b"), below()) for v in sorted(r.sample(range(1 << n), r.randint(1, 1 << n))))
        return "case {} is {}when others => {} end case;".format(x.slice(r.randrange(x.width - n + 1), n), alts, below())

    def turns(self, s, sign):
        """a loop that gives each element a value, or None"""
        near = self.of_kind("uv", s.width)
        if s.kind not in "uv" or not near:
            return None
        x, last = self.r.choice(near), s.width - 1
        ends = f"0 to {last}" if self.chance(0.5) else f"{last} downto 0"
        return "for i in {} loop {} {} {} {} {}; end loop;".format(
            ends, s.at("i"), sign, x.at(self.r.choice(["i", f"{last} - i"])), self.r.choice(LOGIC[:3]), self.scalar(1)
        )

    def statement(self, s, sign, deep, whole):
        """assigns s: on each path if whole is asked"""
        k = self.r.random()
        if not whole and self.chance(0.25):
            return "null;"
        if deep > 0 and k < 0.35:
            text = "if {} then {} ".format(self.condition(), self.statement(s, sign, deep - 1, whole))
            if self.chance(0.4):
                text += "elsif {} then {} ".format(self.condition(), self.statement(s, sign, deep - 1, whole))
            if whole or self.chance(0.5):
                text += f"else {self.statement(s, sign, deep - 1, whole)} "
            return text + "end if;"
        if deep > 0 and k < 0.55:
            return self.choose(s, sign, deep, whole)
        if k < 0.65 and s.kind in "uv":
            if self.chance(0.3) and sign == "<=":
                return "{} <= (others => {});".format(s.name, self.scalar(1))
            return self.turns(s, sign) or self.assign(s, sign)
        return self.assign(s, sign)

    def variable(self):
        kind = self.r.choice("suve" if self.types else "suv")
        width, upward = 1 if kind in "se" else self.r.randint(1, 9), self.chance(0.3)
        return self.placed(Signal(self.fresh("v"), kind, width, upward, self.r.choice(self.types) if kind == "e" else None))

    def variables(self):
        """declarations, statements that set each, and the variables, known from here on"""
        decls, text, mine = "", "", []
        while self.chance(0.4) and len(mine) < 3:
            v = self.variable()
            decls += "variable {} : {}{}; ".format(v.name, self.type_of(v), " := " + self.literal(v) if self.chance(0.4) else "")
            text += self.assign(v, ":=") + " "
            self.known.append(v)
            mine.append(v)
            near = self.of_kind("uv", 2)
            if near and v.kind in "su" and self.chance(0.5):
                text += self.stepped(v, near) + " "
            elif self.chance(0.5):
                text += self.statement(v, ":=", 1, False) + " "
        return decls, text, mine

    def stepped(self, v, near):
        """two loops over a vector's elements that change a variable"""
        x = self.r.choice(near)
        step = (
            "{} := {} xor ({} and {});".format(v.name, v.name, x.at("i"), x.at("j"))
            if v.kind == "s"
            else "if {} = '1' and {} /= '0' then {} := {} + 1; end if;".format(x.at("i"), x.at("j"), v.name, v.name)
        )
        return f"for i in 0 to {x.width - 1} loop for j in i to {x.width - 1} loop {step} end loop; end loop;"

    def label(self):
        return self.fresh("p") + ": " if self.chance(0.4) else ""

    def reads(self, text):
        """the signals that a combinational body reads; its targets aren't known yet"""
        words = set(re.findall(r"\w+", text))
        return sorted(s.name for s in self.known if s.name in words and s.name[0] not in "vk")

    def process(self, targets):
        decls, text, mine = self.variables()
        whole = self.chance(0.5)
        for s in targets:
            if not whole:
                text += self.assign(s, "<=", 1) + " "
            text += self.statement(s, "<=", 2, whole) + " "
        self.known = [s for s in self.known if s not in mine]
        reads = self.reads(text)
        return "{}process ({}) {}begin {}end process;".format(self.label(), "all" if self.chance(0.6) or not reads else ", ".join(reads), decls, text)

    def concurrent(self, s):
        """one target: an assignment, plain, conditional or selected, or a generate"""
        r, k = self.r, self.r.random()
        if k < 0.3:
            return self.label() + self.assign(s, "<=", 3)
        if k < 0.45:
            return "{}{} <= {} when {} else {};".format(self.label(), s.name, self.value(s), self.condition(), self.value(s))
        if k < 0.52 and self.depth:
            arms = [("n > 2", self.assign(s, "<=")), ("n <= 2", self.process([s]))]
            return " ".join("{}: if {} generate {} end generate;".format(self.fresh("h"), c, a) for c, a in arms)
        near = [x for x in self.of_kind("uve") if x.kind == "e" or x.width <= 3]
        if k < 0.65 and near:
            x = r.choice(near)
            marks = x.words[1:] if x.kind == "e" else [f'"{format(v, f"0{x.width}b")}"' for v in range(1 << x.width)]
            arms = ", ".join("{} when {}".format(self.value(s), m) for m in r.sample(marks, r.randint(1, len(marks))))
            return "{}with {} select {} <= {}, {} when others;".format(self.label(), x.name, s.name, arms, self.value(s))
        near = self.of_kind("uv", s.width)
        if k < 0.85 and near and s.kind in "uv":
            x, g = r.choice(near), self.fresh("g")
            if self.chance(0.4):
                return f"{g}: for i in 0 to {s.width - 1} generate {s.at('i')} <= {x.at('i')} {r.choice(LOGIC)} {self.scalar(1)}; end generate;"
            inner = f"process (all) begin if {self.condition()} then {s.at('i')} <= {x.at(f'{x.width - 1} - i')}; else {s.at('i')} <= {self.scalar(1)}; end if; end process;"
            return f'{g}: for i in 0 to {s.width - 1} generate {self.fresh("h")}: if i mod 2 = 0 generate {inner} end generate; {self.fresh("h")}: if i mod 2 /= 0 generate {s.at("i")} <= {x.at("i")}; end generate; end generate;'
        return self.process([s])

    def declare(self, kind, width, out=False, start=False):
        s = Signal(
            self.fresh("y" if out else "e" if kind == "e" else "n"),
            kind,
            width,
            self.chance(0.25),
            self.r.choice(self.types) if kind == "e" else None,
        )
        s = self.placed(s)
        written = self.type_of_port(s) if out else self.type_of(s)
        text = "{} : {}{}{}".format(s.name, "out " if out else "", written, " := " + self.literal(s) if start else "")
        if out:
            self.outs.append(text)
            self.out_ports.append(s)
        else:
            self.decls.append(f"signal {text};")
        if kind == "e":
            self.shown.append(s)
        return s

    def declare_like(self, port):
        return self.declare(port.kind, port.width)

    def any(self, out=False, start=False):
        kind = self.r.choice("suvv" if out or not self.types else "suvve")
        return self.declare(kind, 1 if kind in "se" else self.r.randint(1, 12), out, start)

    # instances

    def actual(self, port):
        """a net of the port's type that is known, or None"""
        known, self.known = self.known, [s for s in self.known if s.name[0] != "k"]
        if port.kind == "s":
            name = self.scalar(0)
        else:
            name = self.part(port.kind, port.width) if self.of_kind(port.kind, port.width) else None
        self.known = known
        return name

    def child(self):
        """an entity of its own, and one to three instances; their outputs side by side in one net where there is one kind"""
        r = self.r
        c = type(self)(r, self.top + self.fresh("c"), self.depth + 1)
        unit, shadow = c.make()
        self.units += c.units + [(unit, shadow)]
        self.edges |= c.edges
        form, generic = c.top, ""
        if self.chance(0.3):
            ports = re.search(f"entity {c.top} is (.*?) end;", unit, re.S).group(1)
            self.decls.append("component {} is {} end component;".format(c.top, ports))
        else:
            form = "entity work." + c.top
        fixed = ["clk => clk", "rst => rst", "ck2 => ck2"]
        times, fresh, wide = r.randint(1, 3), [], {}
        for p in c.out_ports:
            if p.kind in "uv" and self.chance(0.5):
                wide[p.name] = self.declare(p.kind, p.width * times)
        fresh += wide.values()
        for turn in range(times):
            maps = list(fixed)
            for p in c.in_ports:
                a = None if self.chance(0.15) else self.actual(p)
                if a:
                    maps.append("{} => {}".format(p.name, a))
            for p in c.out_ports:
                if p.name in wide:
                    maps.append("{} => {}".format(p.name, wide[p.name].slice(turn * p.width, p.width)))
                elif self.chance(0.85):
                    s = self.declare_like(p)
                    fresh.append(s)
                    maps.append("{} => {}".format(p.name, s.name))
                elif self.chance(0.5):
                    maps.append(p.name + " => open")
            given = c.generic_map()
            generic = f" generic map ({', '.join(given)})" if given else ""
            self.body.append("{}: {}{} port map ({});".format(self.fresh("u"), form, generic, ", ".join(maps)))
        self.known += fresh

    def row(self):
        """a row of instances in a generate, whose width is a generic"""
        r, name, w, n = self.r, self.top + self.fresh("c"), self.r.randint(1, 4), self.r.randint(1, 4)
        near = [s for s in self.of_kind("u", w * n) if not s.upward and not s.low and s.name[0] != "k"]
        if not near:
            return
        x, z = r.choice(near), Signal(self.fresh("n"), "u", w * n)
        self.decls.append("signal {} : {};".format(z.name, z.type()))
        self.units.append(
            (
                HEAD
                + "entity {} is generic (w : positive := 2); port (clk : in std_logic; i0 : in unsigned(w - 1 downto 0); z : out unsigned(w - 1 downto 0)); end;\narchitecture r of {} is\n  signal q : unsigned(w - 1 downto 0) := (others => '0');\nbegin\n  process (clk) begin if rising_edge(clk) then q <= q + i0 + w; end if; end process;\n  g: for i in 0 to w - 1 generate z(i) <= q(i) xor i0(w - 1 - i); end generate;\nend;\n".format(
                    name, name
                ),
                ("", "", {}),
            )
        )
        self.edges.add(("clk", True))
        self.body.append(
            f'{self.fresh("g")}: for i in 0 to {n - 1} generate u: entity work.{name} generic map ({w}) port map (clk, {x.name}({w} * i + {w - 1} downto {w} * i), {z.name}({w} * i + {w - 1} downto {w} * i)); end generate;'
        )
        self.known.append(z)

    # registers as `--wide` reads them

    def gates(self, least=0):
        return [f"({self.truth(1)})" for _ in range(self.r.randint(least, 2))]

    def joined(self, parts):
        """what `and` joins, in any order and with parentheses"""
        self.r.shuffle(parts)
        while len(parts) > 1:
            k = self.r.randrange(len(parts) - 1)
            pair = " and ".join(parts[k : k + 2])
            parts[k : k + 2] = [f"({pair})" if self.chance(0.4) else pair]
        return parts[0]

    def written(self, clock, rising, mine):
        """a register with conditions beside the edge, also behind a reset, in several ifs of one edge, or with a wait"""
        called = [f"{'rising' if rising else 'falling'}_edge({clock})"]
        edge = called if self.chance(0.5) else [f"{clock}'event", f"{clock} = '{rising:d}'"]
        form = self.r.choice(["if", "if", "reset", "several", "several", "wait", "when"])
        if form == "when":
            return "\n  ".join(self.chosen(s, edge) for s in mine)
        gates = self.gates(1 if form == "if" else 0)
        decls, text, vs = self.variables()
        text += " ".join(self.statement(s, "<=", 3, False) for s in mine)
        null = lambda: "null; " if self.chance(0.25) else ""
        if form == "wait":
            body = "wait until {}; {} ".format(self.joined(edge if self.chance(0.7) else [f"{clock} = '{rising:d}'"]), text)
        elif form == "reset":
            set_ = " ".join(f"{s.name} <= {self.literal(s)};" for s in mine)
            body = f"{null()}if rst = '1' then {set_} elsif {self.joined(edge + gates)} then {text} end if; {null()}"
        elif form == "if":
            body = f"{null()}if {self.joined(edge + gates)} then {text} end if; {null()}"
        else:
            body = f"{null()}if {self.joined(edge + ([] if vs else gates))} then {text} end if; {null()}"
            for _ in range(self.r.randint(1, 2)):
                text = " ".join(self.statement(s, "<=", 2, False) for s in self.r.sample(mine, self.r.randint(1, len(mine))))
                body += f"if {self.joined(edge + self.gates())} then {text} end if; {null()}"
        self.known = [s for s in self.known if s not in vs]
        woken = clock + ", rst" if form == "reset" else clock
        woken = "" if form == "wait" else " (all)" if self.chance(0.2) else f" ({woken})"
        return f"{self.label()}process{woken} {decls}begin {body}end process;"

    def chosen(self, s, edge):
        """a register as a concurrent assignment"""
        reset = f"{self.literal(s)} when rst = '1' else " if self.chance(0.5) else ""
        return f"{self.label()}{s.name} <= {reset}{self.value(s)} when {self.joined(edge + self.gates())};"

    # what `--wide` accepts: loops of processes alone

    def put_together(self):
        """combinational processes, several as one: a net looks at what it looked at before"""
        alone, rest = [], []
        for text in self.body:
            process = re.fullmatch(r"(?:p\d+: )?process \([^)]*\) (.*?)begin (.*)end process;", text)
            m = process or re.fullmatch(r"(?:p\d+: )?()(\w+ <= (?:(?! when ).)*;)", text)
            if m and not re.search(r"_edge|'event", text):
                alone.append(m.groups())
            else:
                rest.append(text)
        self.r.shuffle(alone)
        while alone:
            n = self.r.randint(1, 4)
            decls, texts = ("".join(part) for part in zip(*((d, t.strip() + " ") for d, t in alone[:n])))
            alone = alone[n:]
            reads = self.reads(texts)
            woken = "all" if self.chance(0.6) or not reads else ", ".join(reads)
            rest.append(f"{self.label()}process ({woken}) {decls}begin {texts}end process;")
        self.body = rest

    # and resets that are made inside, none of which comes and goes within a moment

    def copied(self, net, values):
        """a copy of a net that may reset by these values, and those by which it may"""
        s, turned = self.declare("s", 1), self.chance(0.5)
        self.body.append(f"{self.label()}{s.name} <= {'not ' if turned else ''}{net};")
        self.known = self.known + [s]
        self.resets.append((s.name, values.translate({48: 49, 49: 48}) if turned else values))
        return self.resets[-1]

    def make_resets(self):
        """what is made of inputs, registers, of which such may be the reset, and copies of both"""
        r, known = self.r, self.known
        for _ in range(r.randint(0, 2)):
            self.known = [Signal("rst", "s", 1)] + ([] if self.depth else self.in_ports)
            value, s = self.scalar(2), self.declare("s", 1)
            self.body.append(f"{self.label()}{s.name} <= {value};")
            self.resets.append((s.name, "01"))
            known = known + [s]
        self.known, made = known, self.resets[1:]
        made = self.resets[:] + [self.copied(net, values) for net, values in made if self.chance(0.4)]
        for _ in range(r.randint(1, 3)):
            s, start, entry = self.declare("s", 1), r.choice("U01"), r.choice("01")
            self.decls[-1] = f"signal {s.name} : std_logic := '{start}';"
            clock, rising = r.choice(["clk", "clk", "ck2"]), self.chance(0.7)
            self.edges.add((clock, rising))
            edge, text = f"{'rising' if rising else 'falling'}_edge({clock})", f"{s.name} <= {self.scalar(2)};"
            if self.chance(0.4):
                entry = None
                self.body.append(f"process ({clock}) begin if {edge} then {text} end if; end process;")
            else:
                body, woken = self.reset_by(made, f"{s.name} <= '{entry}';", edge, text)
                self.body.append(f"process ({clock}, {woken}) begin {body} end process;")
            self.resets.append((s.name, "01"))
            self.known = self.known + [s]
            # a copy comes to what the register starts with, and then to what it's reset to
            copy = (s.name, "".join(v for v in "01" if start != v or entry in (None, v)))
            while copy[1] and self.chance(0.5):
                copy = self.copied(*copy)

    def reset_by(self, nets, set_, edge, text):
        """the statement of a register with one of these as its reset, before the edge or behind it, and that net"""
        net, values = self.r.choice(nets)
        test = f"{net} = '{self.r.choice(values)}'"
        if self.chance(0.5):
            return f"if {test} then {set_} elsif {edge} then {text} end if;", net
        return f"if {edge} then {text} end if; if {test} then {set_} end if;", net

    # variables that clocked processes keep

    def kept_variable(self, name):
        kind = self.r.choice("suuvve" if self.types else "suuvv")
        words = self.r.choice(self.types) if kind == "e" else None
        return Signal(name, kind, 1 if kind in "se" else self.r.randint(1, 9), self.chance(0.3), words)

    def kept(self):
        """declarations of such variables, which are known from here on"""
        r, mine = self.r, []
        for k in range(r.randint(1, 4)):
            x = self.kept_variable(f"x{k}")
            x.start = self.literal(x)
            mine.append(x)
        self.known = self.known + 3 * mine
        return "".join(f"variable {x.name} : {x.type()} := {x.start}; " for x in mine), mine

    def place(self, x):
        """a name of a part of a vector, and how wide that is"""
        n = self.r.randint(1, x.width - 1)
        return x.slice(self.r.randrange(x.width - n + 1), n), n

    def sets(self, x):
        """sets a variable, or a part of it, by what it was and what is known beside"""
        k, near = self.r.random(), self.of_kind("uv", 2)
        if k < 0.2:
            return f"if {self.condition()} then {self.sets(x)} {f'else {self.sets(x)} ' if self.chance(0.5) else ''}end if;"
        if k < 0.3 and near and x.kind in "su":
            return self.stepped(x, near)
        if k < 0.7 and x.width > 1:
            if k < 0.4:
                return f"{x.element(self.r.randrange(x.width))} := {self.scalar(2)};"
            if k < 0.55:
                part, n = self.place(x)
                return f"{part} := {self.value(Signal('', x.kind, n))};"
            both = [x.slice(self.r.randrange(2), x.width - 1), f"({self.scalar(1)})"]
            self.r.shuffle(both)
            return f"{x.name} := {' & '.join(both)};"
        return self.statement(x, ":=", 2, False)

    def entry(self, s, sign):
        """gives a register or a variable a constant, as a reset does; a variable also a part of it"""
        r, same = self.r, [k.name for k in self.known if k.name[0] == "k" and (k.kind, k.width) == (s.kind, s.width)]
        if s.kind in "uv" and self.chance(0.3):
            return f"{s.name} {sign} (others => '{r.choice('01')}');"
        if same and self.chance(0.5):
            return f"{s.name} {sign} {r.choice(same)};"
        if sign == ":=" and s.width > 1 and self.chance(0.3):
            part, n = self.place(s)
            return f"{part} := {self.literal(Signal('', s.kind, n))};"
        return f"{s.name} {sign} {self.literal(s)};"

    def keeps(self, clock, rising, mine):
        """registers, in any form, in a process that keeps variables; outputs stand before and behind what sets these"""
        r, turns = self.r, ""
        if len(mine) == 1 and mine[0].kind in "uv" and self.chance(0.3):
            turns = f"{self.fresh('g')}: for m in 0 to {mine[0].width - 1} generate "
            mine = [Signal(mine[0].at("m"), "s", 1)]
        edge = [f"{'rising' if rising else 'falling'}_edge({clock})"] if self.chance(0.5) else [f"{clock}'event", f"{clock} = '{rising:d}'"]
        form = r.choice(["if", "reset", "reset", "behind", "behind", "several", "wait"])
        decls, vs = self.kept()
        gates = self.gates() if self.chance(0.4) else []
        more, first, others = self.variables() if self.chance(0.3) else ("", "", [])
        parts = [self.statement(s, "<=", 3, False) for s in mine] + [self.sets(x) for x in vs if self.chance(0.9)]
        parts += [self.sets(r.choice(vs)) for _ in range(r.randint(0, 2))]
        r.shuffle(parts)
        net, values = r.choice(self.resets)
        test, set_ = f"{net} = '{r.choice(values)}'", self.set_by_reset(mine, vs)
        body = self.in_form(form, edge, gates, first, parts, test, set_)
        label = self.fresh("p") + ": " if self.chance(0.9) else ""
        self.keeping += [(label, vs)] if label else []
        self.known = [s for s in self.known if s not in vs + others]
        woken = f"{clock}, {net}" if form in ("reset", "behind") else clock
        woken = "" if form == "wait" else " (all)" if self.chance(0.2) else f" ({woken})"
        return f"{turns}{label}process{woken} {decls}{more}begin {body}end process;{' end generate;' if turns else ''}"

    def set_by_reset(self, mine, vs):
        both = [self.entry(s, "<=") for s in mine if self.chance(0.85)] + [self.entry(x, ":=") for x in vs if self.chance(0.7)]
        self.r.shuffle(both)
        return " ".join(both) or "null;"

    def in_form(self, form, edge, gates, first, parts, test, set_):
        """the body of a register in this form; its first statements stand at an edge without conditions"""
        null = lambda: "null; " if self.chance(0.2) else ""
        at = self.r.randrange(len(parts)) if form == "several" or (form == "behind" and self.chance(0.3)) else 0
        whole, gated = f"{first}{' '.join(parts[at:])}", self.joined(edge + ([] if first else gates))
        if form == "wait":
            return f"wait until {self.joined(edge)}; {whole} "
        if form == "reset":
            return f"{null()}if {test} then {set_} elsif {gated} then {whole} end if; {null()}"
        text = f"{null()}if {gated} then {whole} end if; {null()}"
        if at:
            text += f"if {self.joined(edge + self.gates())} then {' '.join(parts[:at])} end if; {null()}"
        return text + (f"if {test} then {set_} end if; {null()}" if form == "behind" else "")

    # clocked processes, and what breaks a rule

    def clocked(self, mine):
        r = self.r
        clock = r.choice(["clk", "clk", "ck2"])
        rising = self.chance(0.7)
        self.edges.add((clock, rising))
        if KEPT and (self.depth == 0 or self.chance(0.7)):
            return self.keeps(clock, rising, mine)
        if WIDE and self.chance(0.9):
            return self.written(clock, rising, mine)
        edge = r.choice(
            [
                "{}_edge({})".format("rising" if rising else "falling", clock),
                f"{clock}'event and {clock} = '{rising:d}'",
                f"{clock} = '{rising:d}' and {clock}'event",
            ]
        )
        gated = self.joined([edge] + self.gates()) if RESETS else edge
        decls, text, vs = self.variables()
        text += " ".join(self.statement(s, "<=", 3, False) for s in mine)
        self.known = [s for s in self.known if s not in vs]
        if not RESETS and self.chance(0.5):
            return "{}process ({}) {}begin if {} then {} end if; end process;".format(self.label(), clock, decls, edge, text)
        set_ = (
            " ".join(
                "{} <= {};".format(s.name, "(others => '%s')" % r.choice("01") if s.kind in "uv" and self.chance(0.5) else self.literal(s))
                for s in mine
                if self.chance(0.85)
            )
            or "null;"
        )
        if RESETS:
            body, net = self.reset_by(self.resets, set_, gated, text)
            return f"{self.label()}process ({clock}, {net}) {decls}begin {body} end process;"
        reset = r.choice(["rst = '%s'", "rst = '%s'", "'%s' = rst", "(rst = '%s')"]) % r.choice("011")
        woken = "all" if self.chance(0.2) else clock + ", rst"
        return "{}process ({}) {}begin if {} then {} elsif {} then {} end if; end process;".format(
            self.label(), woken, decls, reset, set_, edge, text
        )

    def shared(self):
        """a net with several drivers, also of parts, also out ports of instances"""
        r, s = self.r, self.declare(self.r.choice("suv"), 1)
        s.width = 1 if s.kind == "s" else r.randint(2, 9)
        self.decls[-1] = "signal {} : {}{};".format(s.name, s.type(), r.choice(["", "", " := " + self.literal(s)]))
        idle = r.choice(IDLE)
        for driver in range(2 if self.chance(0.7) else 3):
            n = s.width if s.kind == "s" or driver == 0 or self.chance(0.5) else r.randint(2, s.width)
            part = s.name if s.kind == "s" else s.slice(r.randrange(s.width - n + 1) if n < s.width else 0, n)
            value, none = self.value(Signal("", s.kind, n)), f"'{idle}'" if s.kind == "s" else f'"{idle * n}"'
            k = r.random()
            if k < 0.5:
                self.body.append("{}{} <= {} when {} else {};".format(self.label(), part, value, self.condition(), none))
            elif k < 0.75:
                self.body.append("process (clk) begin if rising_edge(clk) then {} <= {}; end if; end process;".format(part, value))
                self.edges.add(("clk", True))
            else:
                name, port = self.top + self.fresh("c"), Signal("z", s.kind, n)
                self.units.append(
                    (
                        HEAD
                        + "entity {} is port (en : in std_logic; z : out {} := {}); end;\narchitecture r of {} is\nbegin\n  z <= {} when en = '1' else {};\nend;\n".format(
                            name, port.type(), self.literal(port), name, self.literal(port), none
                        ),
                        ("", "", {}),
                    )
                )
                self.body.append("{}: entity work.{} port map ({}, {});".format(self.fresh("u"), name, self.actual(Signal("", "s", 1)), part))
        self.known.append(s)
        self.faults.add("TwoDrivers")

    def wild(self):
        """one statement that the checker is to refuse"""
        kind = self.r.choice(["TwoDrivers"] * 4 + ["ClockNotInput", "Latch", "Mixed", "MissingSensitivity"])
        if kind == "TwoDrivers":
            return self.shared()
        s = self.any()
        if kind == "ClockNotInput":
            gate = self.declare("s", 1)
            self.edges.add(("clk", True))
            self.body.append("{} <= clk and ({});".format(gate.name, self.scalar(1)))
            self.body.append("process ({}) begin if rising_edge({}) then {} end if; end process;".format(gate.name, gate.name, self.assign(s, "<=")))
        elif kind == "Latch":
            self.body.append("process (all) begin if {} then {} end if; end process;".format(self.condition(), self.assign(s, "<=")))
        elif kind == "Mixed":
            self.edges.add(("clk", True))
            self.body.append(
                "process (clk) begin if rising_edge(clk) and ({}) then {} end if; end process;".format(
                    f"{self.scalar(0)} = '1'", self.assign(s, "<=")
                )
            )
        else:
            text = self.assign(s, "<=", 3)
            reads = self.reads(text)
            if len(reads) < 2:
                return self.shared()
            self.body.append("process ({}) begin {} end process;".format(", ".join(reads[:-1]), text))
        self.known.append(s)
        self.faults.add(kind)

    def in_port(self, name):
        kind = self.r.choice("svvu")
        return self.placed(Signal(name, kind, 1 if kind == "s" else self.r.randint(1, 12), self.chance(0.25)))

    def make(self, wild=False):
        r = self.r
        for _ in range(r.randint(0, 2)):
            self.types.append([self.fresh("t")] + [self.fresh("w") for _ in range(r.randint(2, 6))])
            self.decls.append("type {} is ({});".format(self.types[-1][0], ", ".join(self.types[-1][1:])))
        self.in_ports = [Signal("i0", "s", 1)] + [self.in_port(f"i{k}") for k in range(1, 1 + r.randint(0, 4))]
        self.known = self.in_ports + ([Signal("rst", "s", 1)] if self.chance(0.5) else [])
        registers = [self.any(False, self.chance(0.8)) for _ in range(r.randint((WIDE or KEPT) and self.depth == 0, 5))]
        self.constants()
        self.known = self.known + registers
        if RESETS or (KEPT and self.chance(0.3)):
            self.make_resets()
        for _ in range(r.randint(1, 6 if self.depth == 0 else 3) + 3 * NETS):
            if self.depth < 2 and self.chance(0.25):
                self.child()
            if self.chance(0.1):
                self.row()
            targets = [self.any(self.chance(0.4)) for _ in range(1 if self.chance(0.6) else r.randint(1, 3))]
            self.body.append(self.concurrent(targets[0]) if len(targets) == 1 and self.chance(0.6) else self.process(targets))
            self.known += targets
        for _ in range(r.randint(1, 2) if wild else 0):
            self.wild()
        while registers:
            n = r.randint(1, len(registers))
            self.body.append(self.clocked(registers[:n]))
            registers = registers[n:]
        if NETS:
            self.put_together()
        r.shuffle(self.body)
        return self.text()

    def text(self):
        """the design's text, and what GHDL needs beside it to show enumerations and variables: declarations and statements,
        and both for variables by their process's label"""
        default = lambda p: " := " + self.literal(p) if self.depth else ""
        ports = ["clk, rst, ck2 : in std_logic"] + ["{} : in {}{}".format(p.name, self.type_of_port(p), default(p)) for p in self.in_ports] + self.outs
        its = self.generics()
        generic = f"generic ({'; '.join(its)}); " if its else ""
        if self.depth and self.of_kind("u") and self.chance(0.7):
            s, x = self.declare("u", self.r.randint(1, 8)), self.r.choice(self.of_kind("u"))
            self.body.append(f"{s.name} <= resize({x.name}, {s.width}) + n;")
        shadow = [(s.name, len(s.words) - 1, s.words[0]) for s in self.shown]
        wide = lambda count: max(1, (count - 1).bit_length())
        number = lambda n, c, t: f"std_logic_vector(to_unsigned({t}'pos({n}), {wide(c)}))"
        vector = lambda c: f"std_logic_vector({wide(c) - 1} downto 0)"
        more = "".join(f"  signal zz_{n} : {vector(c)};\n" for n, c, _ in shadow)
        show = "".join(f"  zz_{n} <= {number(n, c, t)};\n" for n, c, t in shadow)
        ends = {}
        for label, x in ((label, x) for label, vs in self.keeping for x in vs):
            its = (len(x.words) - 1, x.words[0]) if x.kind == "e" else None
            name, kind, of = f"zz_{label[:-2]}_{x.name}", vector(its[0]) if its else x.type(), lambda n: number(n, *its) if its else n
            declared, shown = ends.get(label, ("", ""))
            ends[label] = declared + f"signal {name} : {kind} := {of(x.start)}; ", shown + f"{name} <= {of(x.name)}; "
        return "{}entity {} is {}port ({}); end;\narchitecture r of {} is\n  {}\nbegin\n  {}\nend;\n".format(
            HEAD, self.top, generic, "; ".join(ports), self.top, "\n  ".join(self.decls), "\n  ".join(self.body)
        ), (more, show, ends)


def beside(unit):
    text, (more, show, ends) = unit
    for label, (declared, shown) in ends.items():
        at = text.index("end process;", text.index(f" {label}process"))
        text = text[:at] + shown + text[at:]
        inside = text.replace(f"generate {label}", f"generate {declared}begin {label}")
        more += "" if inside != text else f"  {declared}\n"
        text = inside
    at = text.index("\nbegin\n  ") + 1
    return text[:at] + more + "begin\n" + show + text[at + 6 :]
