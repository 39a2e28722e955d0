"""One design beside GHDL: a random stimulus, a testbench for GHDL, both traces, and where they differ."""
import random
import re
import subprocess
import sys
import tempfile
from pathlib import Path

TOP = Path(__file__).resolve().parents[2]
sys.path.insert(0, str(TOP / "bridge"))
from dump import vcd  # noqa: E402
from raw.ghdl import called  # noqa: E402

PERIOD, STEPS = 10, 40
NINE = "UX01ZWLH-"
STATES = {"0": "0", "l": "0", "1": "1", "h": "1"}
TYPES = {"std_logic": "std_logic", "std_ulogic": "std_logic", "bit": "bit", "std_logic_vector": "std_logic_vector", "std_ulogic_vector": "std_logic_vector",
         "unsigned": "unsigned", "u_unsigned": "unsigned", "signed": "signed", "u_signed": "signed", "bit_vector": "bit_vector"}
# what is no word of a statement
QUOTED = r"""\"[^"\n]*"|'.'|\\[^\\\n]*\\|--[^\n]*|/\*.*?\*/"""
# a time, up to a comma or its end; a waveform of several elements is kept
TIME = r"(?:\((?:[^()]|\([^()]*\))*\)|(?!--|\bwhen\b|\belse\b)[^(),;])*"
DELAY = re.compile(rf"(?is)({QUOTED}|\bafter\b{TIME},[^;]*?(?=;|\bwhen\b))|\breject\b[^;]*?\binertial\b|\bafter\b{TIME}(?=;|--|\bwhen\b|\belse\b)")
HEAD = "library ieee;\nuse ieee.std_logic_1164.all;\nuse ieee.numeric_std.all;\n"


def ports_of(text, top):
    """The names, modes, type marks and whole subtypes of an entity's ports by its own words."""
    it = re.search(rf"(?is)\bentity\s+{top}\s+is\b(.*?)\bend\b", re.sub(r"--[^\n]*", "", text))
    ports = it and re.search(r"(?is)\bport\s*\((.*)\)\s*;", it[1])
    for part in ports[1].split(";") if ports else ():
        names, _, rest = part.partition(":")
        word = re.match(r"(?is)\s*(in\b|out\b|inout\b|buffer\b)?\s*((\w*).*?)\s*(:=.*)?$", rest)
        for name in names.split(","):
            if name.split():
                yield name.split()[-1].lower(), (word[1] or "in").lower(), word[3].lower(), word[2]


def kinds(text, top):
    """The type of each port of an entity, or None where one isn't of the standard packages' elements and vectors."""
    found = {name: TYPES.get(word) for name, _, word, _ in ports_of(text, top)}
    return None if None in found.values() else found


def undelayed(text):
    """A source without its delays, which synthesis leaves out."""
    return DELAY.sub(lambda it: it[1] or "", text)


def modes(text, top):
    return {name: mode for name, mode, _, _ in ports_of(text, top)}


def drawn(r, width, nine):
    """A random value: of 0 and 1, or, if `nine`, by turns so, with one element of the nine values, and of them all."""
    bits = "".join(r.choice("01") for _ in range(width))
    if not nine or r.random() < 0.4:
        return bits
    if r.random() < 0.5:
        at = r.randrange(width)
        return bits[:at] + r.choice(NINE) + bits[at + 1 :]
    return "".join(r.choice(NINE) for _ in range(width))


def stimulus(ports, clocks, resets, seed, nine=(), left_out=(), others=()):
    """Changes of the inputs, each a time, a name and its value: clocks have their edges apart from all else.

    The inputs in `nine` have all nine values, a clock one of them in place of its 1 now and then; those left out have no line. Those in `others` have
    kinds of their own.
    """
    r, changes = random.Random(seed), []
    for at, clock in enumerate(clocks):
        changes.append((0, clock, "0"))
        for step in range(STEPS):
            high = r.choice(NINE) if clock in nine and r.random() < 0.1 else "1"
            changes.append((step * PERIOD + 5 + at % 3, clock, high))
            changes.append((step * PERIOD + 9 if at % 3 == 2 else step * PERIOD + 10 + at % 3, clock, "0"))
    inputs = [it for it in ports if it.kind == "in" and it.name not in clocks and it.name not in left_out and it.shape.width()]
    for it in inputs:
        for step in range(STEPS + 1):
            time = step * PERIOD + 3 if step else 0
            if it.name in resets and step not in (0, 2, 20, 22):
                continue
            bits = others[it.name].drawn(r, it.name in nine) if it.name in others else drawn(r, it.shape.width(), it.name in nine)
            if it.name in resets:
                active = resets[it.name]
                bits = active if step in (0, 20) else "10"[int(active)]
            changes.append((time, it.name, bits))
    return sorted(changes, key=lambda it: it[0])


def as_stimulus(changes, stop, parts):
    """The stimulus for rtlsim; a port in parts has its value in theirs, the rightmost first."""
    lines = []
    for time, name, bits in changes:
        high = len(bits)
        for part, width in parts.get(name, [(name, high)]):
            lines.append(f"at {time} {part} {bits[high - width : high]}\n")
            high -= width
    return "".join(lines) + f"stop {stop}\n"


def whole(values, parts):
    """The values of a moment, with those of ports in parts joined."""
    for name, them in parts.items():
        values[name] = "".join(plain(values.get(part, "x"), width) for part, width in reversed(them))
    return values


def testbench(top, ports, types, changes, others=(), packages=()):
    """A testbench for GHDL. `others` are the kinds of ports that aren't of the types in `types`; the elements of an output of those have its name."""

    def value(name, bits):
        if name in others:
            return others[name].literal(bits)
        return f"'{bits}'" if by_name[name].shape.is_bit and types.get(name, "std_logic") in ("std_logic", "bit") else f'"{bits}"'

    def kind(it):
        found = types.get(it.name, "std_logic" if it.shape.is_bit else "std_logic_vector")
        return found if found.endswith(("logic", "bit")) else f"{found}({it.shape.width() - 1} downto 0)"

    by_name = {it.name: it for it in ports}
    lines = [HEAD, *(f"use work.{it}.all;" for it in packages), "entity tb is end;", "architecture t of tb is"]
    first = {name: bits for time, name, bits in changes if time == 0}
    for it in ports:
        start = f" := {value(it.name, first[it.name])}" if it.name in first else ""
        lines.append(f"signal {it.name} : {others[it.name].subtype if it.name in others and it.kind == 'in' else kind(it)}{start};")
    made = [it.name for it in ports if it.name in others and it.kind == "out"]
    lines += [f"signal {name}_made : {others[name].subtype};" for name in made]
    lines += ["begin", *(f"{name} <= {others[name].image(f'{name}_made')};" for name in made)]
    connected = f" port map ({', '.join(f'{it.name} => {it.name}' + '_made' * (it.name in made) for it in ports)})" if ports else ""
    lines += [f"dut: entity work.{top}{connected};", "process begin"]
    last = 0
    for time in sorted({time for time, _, _ in changes if time}):
        sets = " ".join(f"{name} <= {value(name, bits)};" for at, name, bits in changes if at == time)
        lines.append(f"wait for {time - last} ns; {sets}")
        last = time
    return "\n".join(lines + ["wait; end process;", "end;", ""])


def trace(text, scope):
    """The settled values by time and name, in one scope of a VCD trace."""
    now, found = {}, {}
    for time, changed in vcd.moments(text.split("\n")):
        now |= {name: value for scopes, name, value in changed if ".".join(scopes) == scope}
        found[time] = dict(now)
    return found


def plain(bits, width):
    bits = "".join(STATES.get(it, "x") for it in bits.lower())
    return bits.rjust(width, "x" if bits[:1] == "x" else "0")


def ghdl(text, bench, stop):
    """GHDL's trace of the testbench's own signals, or what it says."""
    with tempfile.TemporaryDirectory() as work:
        with open(f"{work}/t.vhd", "w") as file:
            file.write(text + "\n" + bench)
        words = ["-c", "--std=08", "t.vhd", "-r", "tb", "--ieee-asserts=disable", f"--stop-time={stop}ns", "--vcd=t.vcd"]
        done = called(work, *words, seconds=60)
        if done.returncode or "--stop-delta" in done.stdout + done.stderr:
            return None, (done.stderr or done.stdout).strip().split("\n")[0]
        with open(f"{work}/t.vcd") as file:
            return trace(file.read(), "tb"), ""


def own(program, command, text, top, changes, stop, parts):
    """rtlsim's trace of the top's ports, or what it says; `parts` are the ports that are in parts, with those and their widths."""
    with tempfile.TemporaryDirectory() as work:
        for name, part in (("t.vhd", text), ("t.stim", as_stimulus(changes, stop, parts))):
            with open(f"{work}/{name}", "w") as file:
                file.write(part)
        done = subprocess.run([program, "run", *command, "t.vhd", top, "t.stim"], cwd=work, capture_output=True, text=True, timeout=120)
    if done.returncode:
        return None, done.stderr.strip().split("\n")[0]
    return {time: whole(values, parts) for time, values in trace(done.stdout, top).items()}, ""


def differences(theirs, ours, outputs, is_strict=False):
    """How many values of outputs there are, and those that differ (strictly: also where GHDL's is unknown): time, name, theirs, ours."""
    count, found, a, b = 0, [], theirs.get(0, {}), ours.get(0, {})
    for time in sorted((theirs.keys() | ours.keys()) - {0}) or [0]:
        a, b = theirs.get(time, a), ours.get(time, b)
        for it in outputs:
            width = it.shape.width()
            left, right = plain(a.get(it.name, "x"), width), plain(b.get(it.name, "x"), width)
            count += 1
            if any(x != y and (is_strict or x != "x") for x, y in zip(left, right)):
                found.append((time, it.name, left, right))
    return count, found
