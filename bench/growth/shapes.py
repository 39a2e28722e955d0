"""Shapes of sources and stimuli that grow with one number, to measure what the program takes of each.

A shape is a function of its size; it gives a Case, whose top is `t`. SHAPES has for each shape the least size that is measured and
the commands that are. `exempt` names the commands of which more than linear growth is no fault, and why; `grows` tells by what a shape
grows, where it isn't its size.
"""
import math
import random
import typing

HEADER = "library ieee; use ieee.std_logic_1164.all; use ieee.numeric_std.all;\n"
CLOCK = "clock clk 5 5\n"


class Case(typing.NamedTuple):
    """A source, its stimulus, expected values if there are any, further sources, and words of `eval`."""

    source: str
    stimulus: str = "stop 20\n"
    expected: str = ""
    others: tuple = ()
    words: tuple = ()


class Shape(typing.NamedTuple):
    make: typing.Callable
    least: int
    commands: tuple
    exempt: dict = {}
    grows: typing.Callable = lambda size: size


def design(ports, declarations, statements, name="t"):
    return f"{HEADER}entity {name} is port ({ports}); end;\narchitecture r of {name} is\n{declarations}\nbegin\n{statements}\nend;\n"


def signals(name, count, mark, start=""):
    return f"signal {', '.join(f'{name}{k}' for k in range(count))} : {mark}{start};"


def lines(count, text):
    """The text once for each number, which stands in it as `#`."""
    return "\n".join(text.replace("#", str(k)) for k in range(count))


def clocked(body):
    return f"process (clk) begin if rising_edge(clk) then {body} end if; end process;"


def cycles(count):
    return f"{CLOCK}stop {10 * count}\n"


def cell(name="k"):
    return design("clk : in std_logic; q : out std_logic", "signal s : std_logic := '0';", f"{clocked('s <= not s;')} q <= s;", name)


# ---- processes, instances and generates


def registers(n):
    """A register and a process each."""
    return Case(design("clk, d : in std_logic", signals("q", n, "std_logic", " := '0'"), lines(n, clocked("q# <= not q#;"))), cycles(20))


def resets(n):
    process = "process (clk, rst) begin if rst = '1' then q# <= '0'; elsif rising_edge(clk) then q# <= not q#; end if; end process;"
    return Case(design("clk, rst : in std_logic", signals("q", n, "std_logic", " := '0'"), lines(n, process)), f"at 0 rst 1\nat 7 rst 0\n{cycles(20)}")


def instances(n):
    return Case(cell() + design("clk : in std_logic", signals("q", n, "std_logic"), lines(n, "u# : entity work.k port map (clk, q#);")), cycles(20))


def entities(n):
    return Case("".join(cell(f"k{k}") for k in range(n)) + design("clk : in std_logic", "", lines(n, "u# : entity work.k# port map (clk, open);")), cycles(20))


def files(n):
    others = tuple(cell(f"k{k}") for k in range(n))
    return Case(design("clk : in std_logic", "", lines(n, "u# : entity work.k# port map (clk, open);")), cycles(20), others=others)


def nested(n):
    """A binary tree of instances with n leaves."""
    height, source = int(math.log2(n)), cell("k0")
    for level in range(1, height + 1):
        inner = f"u0 : entity work.k{level - 1} port map (clk, a); u1 : entity work.k{level - 1} port map (clk, b); q <= a xor b;"
        source += design("clk : in std_logic; q : out std_logic", "signal a, b : std_logic;", inner, f"k{level}")
    return Case(source + design("clk : in std_logic; q : out std_logic", "", f"u : entity work.k{height} port map (clk, q);"), cycles(20))


def generates(n):
    inner = "h : for j in 0 to 15 generate u : entity work.k port map (clk, open); end generate;"
    return Case(cell() + design("clk : in std_logic", "", f"g : for i in 0 to {n // 16 - 1} generate {inner} end generate;"), cycles(20))


def open_ports(n):
    """n instances, each of which leaves n ports open."""
    ports = "; ".join(f"p{k} : in std_logic := '0'" for k in range(n))
    return Case(design(ports, "", "", "k") + design("clk : in std_logic", "", lines(n, "u# : entity work.k;")), cycles(2))


def open_generics(n):
    """n instances, each of which leaves n generics open."""
    generics = "; ".join(f"g{k} : integer := 0" for k in range(n))
    unit = design("a : in std_logic := '0'", "", "", "k").replace("k is port", f"k is generic ({generics}); port")
    return Case(unit + design("clk : in std_logic", "", lines(n, "u# : entity work.k;")), cycles(2))


# ---- bodies


def assignments(n):
    return Case(design("clk, d : in std_logic", signals("q", n, "std_logic", " := '0'"), clocked(lines(n, "q# <= d;"))), cycles(20))


def logic(n):
    body = lines(n, "q# <= d;")
    return Case(design("clk, d : in std_logic", signals("q", n, "std_logic"), f"process (all) begin\n{body}\nend process;"), f"clock d 7 5\n{cycles(20)}")


def ifs(n):
    body = "\n".join(f"if d = '1' then q <= to_unsigned({k % 65536}, 16); end if;" for k in range(n))
    statements = f"process (all) begin q <= (others => d);\n{body}\nend process;"
    return Case(design("clk, d : in std_logic", "signal q : unsigned(15 downto 0);", statements), f"clock d 7 5\n{cycles(20)}")


COUNTER = "signal q, y : unsigned(19 downto 0) := (others => '0');"
COUNTS = clocked("q <= q + 37;")


def case(n):
    choices = "\n".join(f'when "{k:020b}" => y <= to_unsigned({k}, 20);' for k in range(n))
    body = f"process (all) begin case q is\n{choices}\nwhen others => y <= q; end case; end process;"
    return Case(design("clk : in std_logic", COUNTER, f"{COUNTS}\n{body}"), cycles(200))


def selected(n):
    choices = "\n".join(f'to_unsigned({k}, 20) when "{k:020b}",' for k in range(n))
    return Case(design("clk : in std_logic", COUNTER, f"{COUNTS}\nwith q select y <=\n{choices}\nq when others;"), cycles(200))


def conditional(n):
    arms = "\n".join(f"to_unsigned({k}, 20) when q = {k} else" for k in range(n))
    return Case(design("clk : in std_logic", COUNTER, f"{COUNTS}\ny <= {arms}\nq;"), cycles(20))


def loops(n):
    inner = f"for i in 0 to {n // 256 - 1} loop for j in 0 to 255 loop v := v + i; end loop; end loop;"
    body = f"process (clk) variable v : unsigned(15 downto 0); begin if rising_edge(clk) then v := q; {inner} q <= v; end if; end process;"
    return Case(design("clk : in std_logic", "signal q : unsigned(15 downto 0) := (others => '0');", body), cycles(20))


def elements(n):
    process = "process (all) begin for i in 0 to 63 loop q#(i) <= d; end loop; end process;"
    return Case(design("clk, d : in std_logic", signals("q", n, "std_logic_vector(63 downto 0)"), lines(n, process)), f"clock d 7 5\n{cycles(20)}")


def operands(n):
    operation = "\n xor ".join(["d"] * n)
    return Case(design("clk, d : in std_logic; y : out std_logic", "", f"y <= {operation};"), f"clock d 7 5\n{cycles(20)}")


def variables(n):
    """n variables of 64 elements beside a body of 1,024 n statements."""
    names = ",\n".join(f"v{k}" for k in range(n))
    turns = f"for i in 0 to {4 * n - 1} loop for j in 0 to 255 loop y <= d; end loop; end loop;"
    body = f"process (all)\nvariable {names} : std_logic_vector(63 downto 0);\nbegin {turns} end process;"
    return Case(design("d : in std_logic; y : out std_logic", "", body), "clock d 7 5\nstop 20\n")


def constants(n):
    declared = "\n".join(f"constant c{k} : integer := {f'c{k - 1} + 1' if k else '0'};" for k in range(n))
    return Case(design("clk, d : in std_logic; y : out unsigned(31 downto 0)", declared, f"y <= to_unsigned(c{n - 1}, 32);"), cycles(2))


# ---- nets


def fanout(n):
    declared = f"signal x : std_logic := '0'; {signals('q', n, 'std_logic')}"
    return Case(design("clk : in std_logic", declared, f"{clocked('x <= not x;')}\n{lines(n, 'q# <= x;')}"), cycles(20))


def compared(n):
    """n processes that each look at a whole vector."""
    process = "process (all) begin if v = # then q# <= '1'; else q# <= '0'; end if; end process;"
    declared = f"signal v : unsigned(63 downto 0) := (others => '0'); {signals('q', n, 'std_logic')}"
    return Case(design("clk : in std_logic", declared, f"{clocked('v <= v + 1;')}\n{lines(n, process)}"), cycles(20))


def chain(n):
    inverters = "\n".join(f"q{k} <= not q{k - 1};" for k in range(1, n))
    return Case(design("clk : in std_logic", signals("q", n, "std_logic", " := '0'"), f"{clocked('q0 <= not q0;')}\n{inverters}"), cycles(20))


def ripple(n):
    """A process that drives a chain of n nets, which have settled from the start."""
    inverters = "\n".join(f"q{k} <= not q{k - 1};" for k in range(1, n))
    return Case(design("d : in std_logic", signals("q", n, "std_logic"), f"process (all) begin q0 <= d;\n{inverters}\nend process;"))


def layers(n):
    width = math.isqrt(n)
    gates = [f"q{row * width + k} <= q{(row - 1) * width + k} xor q{(row - 1) * width + (k + 1) % width};" for row in range(1, width) for k in range(width)]
    starts = [clocked(f"q{k} <= not q{k};") for k in range(width)]
    return Case(design("clk : in std_logic", signals("q", width * width, "std_logic", " := '0'"), "\n".join(gates + starts)), cycles(20))


def vectors(n):
    return Case(design("clk : in std_logic", signals("q", n, "unsigned(63 downto 0)", " := (others => '0')"), lines(n, clocked("q# <= q# + 1;"))), cycles(20))


def quiet(n):
    declared = f"{signals('q', n, 'std_logic_vector(31 downto 0)')} signal x : std_logic := '0';"
    return Case(design("clk : in std_logic", declared, clocked("x <= not x;")), cycles(20))


def drivers(n):
    return Case(design("clk, d : in std_logic", "signal q : std_logic;", lines(n, "q <= d;")), f"clock d 7 5\n{cycles(20)}")


# ---- stimuli and expected values

SMALL = design("clk, d : in std_logic; y : out std_logic", "signal q : std_logic := '0';", f"{clocked('q <= d;')} y <= q xor d;")


def inputs(name, count):
    return "; ".join(f"{name}{k} : in std_logic" for k in range(count))


def clocks(n):
    source = design(inputs("c", n), signals("q", n, "std_logic", " := '0'"), lines(n, "process (c#) begin if rising_edge(c#) then q# <= not q#; end if; end process;"))
    return Case(source, f"{lines(n, 'clock c# 5 5')}\nstop 100\n")


def clocks_apart(n):
    stimulus = "".join(f"clock c{k} {5 + k} 1000000000\n" for k in range(n))
    return clocks(n)._replace(stimulus=f"{stimulus}stop {n + 10}\n")


def clocks_of_one_remainder(n):
    """n clocks at times that 256 divides: one toggles at the stop alone, the others twenty times together."""
    toggles = "".join(f"clock c{k} 256 256\n" for k in range(1, n))
    return clocks(n)._replace(stimulus=f"clock c0 5120 5120\n{toggles}stop 5120\n")


def clocks_and_data(n):
    """n clocks, which toggle n / 5 times each, and n / 10 changes of one input."""
    process = "process (c#) begin if rising_edge(c#) then q# <= d; end if; end process;"
    changes = "".join(f"at {10 * k + 2} d {k % 2}\n" for k in range(n // 10))
    source = design(f"{inputs('c', n)}; d : in std_logic", signals("q", n, "std_logic", " := '0'"), lines(n, process))
    return Case(source, f"{lines(n, 'clock c# 5 5')}\nstop {n + 10}\n{changes}")


def clocks_beside_data(n):
    """n clocks, which toggle once each, and as many changes of one input at other times."""
    toggles = "".join(f"clock c{k} {2 * k + 5} 1000000000\n" for k in range(n))
    changes = "".join(f"at {2 * k + 2} d {k % 2}\n" for k in range(n))
    return clocks_and_data(n)._replace(stimulus=f"{toggles}{changes}stop {2 * n + 6}\n")


def many_inputs(n):
    return design(f"{inputs('d', n)}; y : out std_logic", "", "y <= d0;")


def inputs_apart(n):
    return Case(many_inputs(n), "".join(f"at {k + 1} d{k} 1\n" for k in range(n)) + f"stop {n + 1}\n")


def inputs_together(n):
    return Case(many_inputs(n), "".join(f"at 5 d{k} 1\n" for k in range(n)) + "stop 10\n")


def reset_beside_inputs(n):
    """n registers of one process, which is sensitive to its reset and to n inputs, which change together."""
    clear, take = lines(n, "q# <= '0';"), lines(n, "q# <= d#;")
    process = f"process (all) begin if rst = '1' then\n{clear}\nelsif rising_edge(clk) then\n{take}\nend if; end process;"
    source = design(f"clk, rst : in std_logic; {inputs('d', n)}", signals("q", n, "std_logic"), process)
    return Case(source, "at 0 rst 1\n" + "".join(f"at 5 d{k} 1\n" for k in range(n)) + "stop 10\n")


def words(n):
    return Case(many_inputs(n), words=tuple(f"d{k}=1" for k in range(n)))


def changes(n, order=list):
    sets = "".join(f"at {10 * k} d {k % 2}\n" for k in order(range(n)))
    return Case(SMALL, f"clock clk 5 10\n{sets}stop {10 * n}\n")


def changes_backwards(n):
    return changes(n, reversed)


def moments(n):
    return Case(SMALL, cycles(n))


def comments(n):
    return Case(SMALL + "-- x\n" * n, cycles(20))


def expected(n, order=list):
    return Case(SMALL, cycles(n), "".join(f"at {10 * k} y -\n" for k in order(range(n))))


def expected_backwards(n):
    return expected(n, reversed)


def expected_at_random(n):
    return expected(n, lambda numbers: random.Random(1).sample(numbers, n))


def expected_at_once(n):
    return Case(SMALL, cycles(20), "at 5 y -\n" * n)


# ---- what is refused


def faulty(n, statement):
    return Case(design("clk, d : in std_logic", signals("q", n, "std_logic"), lines(n, statement)), cycles(20))


def latches(n):
    return faulty(n, "process (all) begin if d = '1' then q# <= clk; end if; end process;")


def latches_on_a_line(n):
    return latches(n)._replace(source=latches(n).source.replace("\n", " "))


def latches_of_a_process(n):
    body = lines(n, "q# <= clk;")
    return Case(design("clk, d : in std_logic", signals("q", n, "std_logic"), f"process (all) begin if d = '1' then\n{body}\nend if; end process;"), cycles(20))


def insensitive(n):
    return faulty(n, "process (clk) begin q# <= d; end process;")


def clocks_as_data(n):
    return faulty(n, clocked("q# <= clk;"))


def gated(n):
    declared = f"{signals('q', n, 'std_logic')} {signals('g', n, 'std_logic')}"
    process = "g# <= clk and d; process (g#) begin if rising_edge(g#) then q# <= d; end if; end process;"
    return Case(design("clk, d : in std_logic", declared, lines(n, process)), cycles(20))


def two_drivers(n):
    return faulty(n, "q# <= d; q# <= clk;")


def stored(n):
    names, body = ", ".join(f"v{k}" for k in range(n)), lines(n, "q <= v#; v# := d;")
    return Case(design("clk, d : in std_logic", "signal q : std_logic;", f"process (all) variable {names} : std_logic; begin q <= d;\n{body}\nend process;"), cycles(20))


def ring(n):
    inverters = "\n".join(f"q{k} <= not q{k - 1};" for k in range(1, n))
    return Case(design("clk, d : in std_logic", signals("q", n, "std_logic", " := '0'"), f"q0 <= q{n - 1};\n{inverters}"), cycles(20))


def undriven(n):
    declared = f"{signals('q', n, 'std_logic')} {signals('x', n, 'std_logic')}"
    return Case(design("clk, d : in std_logic", declared, lines(n, "q# <= x#;")), cycles(20))


def undeclared(n):
    return Case(design("clk, d : in std_logic", "signal q : std_logic;", lines(n, "q <= zz#;")), cycles(2))


NOTHING = Case(design("a : in std_logic", "", ""), "stop 0\n")
RUNS = ("run", "run --event", "run --levels")
EACH = ("net", "check", "check --dot", "check --json", "check --explain", *RUNS)
WIDE = ("check --wide", "run --wide", "run --wide --levels")
JUDGED = ("check", "check --json", "check --explain")
REFUSED = (*JUDGED, "run --event")
EVENTS = "a wave through n inverters is n delta cycles of up to n events"
SHAPES = {
    "registers": Shape(registers, 512, EACH),
    "resets": Shape(resets, 512, EACH),
    "instances": Shape(instances, 512, EACH),
    "entities": Shape(entities, 128, EACH),
    "files": Shape(files, 64, EACH),
    "nested": Shape(nested, 256, EACH),
    "generates": Shape(generates, 512, EACH),
    "open_ports": Shape(open_ports, 256, ("net", "check", "run"), grows=lambda size: size * size),
    "open_generics": Shape(open_generics, 256, ("net", "check", "run"), grows=lambda size: size * size),
    "assignments": Shape(assignments, 1024, EACH),
    "logic": Shape(logic, 1024, EACH),
    "ifs": Shape(ifs, 1024, EACH),
    "case": Shape(case, 1024, EACH),
    "selected": Shape(selected, 1024, EACH),
    "conditional": Shape(conditional, 1024, EACH),
    "loops": Shape(loops, 8192, EACH),
    "elements": Shape(elements, 128, EACH),
    "operands": Shape(operands, 4096, EACH),
    "variables": Shape(variables, 32, EACH),
    "constants": Shape(constants, 1024, ("net", "check")),
    "fanout": Shape(fanout, 1024, EACH),
    "compared": Shape(compared, 128, EACH),
    "chain": Shape(chain, 128, EACH, exempt={"run": EVENTS, "run --event": EVENTS}),
    "ripple": Shape(ripple, 512, WIDE),
    "layers": Shape(layers, 1024, EACH),
    "vectors": Shape(vectors, 128, EACH),
    "quiet": Shape(quiet, 256, EACH),
    "drivers": Shape(drivers, 512, REFUSED),
    "clocks": Shape(clocks, 256, EACH),
    "clocks_apart": Shape(clocks_apart, 256, RUNS),
    "clocks_of_one_remainder": Shape(clocks_of_one_remainder, 256, RUNS),
    "clocks_and_data": Shape(clocks_and_data, 256, RUNS, grows=lambda size: size * size),
    "clocks_beside_data": Shape(clocks_beside_data, 256, RUNS),
    "inputs_apart": Shape(inputs_apart, 1024, RUNS),
    "inputs_together": Shape(inputs_together, 2048, RUNS),
    "reset_beside_inputs": Shape(reset_beside_inputs, 1024, RUNS),
    "words": Shape(words, 512, ("eval",)),
    "changes": Shape(changes, 4096, RUNS),
    "changes_backwards": Shape(changes_backwards, 4096, RUNS),
    "moments": Shape(moments, 4096, RUNS),
    "comments": Shape(comments, 16384, ("check", "run")),
    "expected": Shape(expected, 4096, RUNS),
    "expected_backwards": Shape(expected_backwards, 4096, RUNS),
    "expected_at_random": Shape(expected_at_random, 4096, RUNS),
    "expected_at_once": Shape(expected_at_once, 16384, RUNS),
    "latches": Shape(latches, 256, REFUSED),
    "latches_on_a_line": Shape(latches_on_a_line, 64, REFUSED),
    "latches_of_a_process": Shape(latches_of_a_process, 256, REFUSED),
    "insensitive": Shape(insensitive, 256, REFUSED),
    "clocks_as_data": Shape(clocks_as_data, 256, REFUSED),
    "gated": Shape(gated, 256, REFUSED),
    "two_drivers": Shape(two_drivers, 256, REFUSED),
    "stored": Shape(stored, 256, JUDGED),
    "ring": Shape(ring, 512, JUDGED),
    "undriven": Shape(undriven, 256, EACH),
    "undeclared": Shape(undeclared, 512, ("check", "check --explain")),
}
