#!/usr/bin/env python3
"""Random designs of the subset beside GHDL.

    design_cases.py make N SEED FILE          N designs with stimulus, GHDL's settled values and faulty twins, one JSON a line
    design_cases.py run FILE PROGRAM [ARG..]  PROGRAM run [ARG..] on each, and what differs from GHDL; designs that the checker
                                              is to refuse are run with --event alone
    design_cases.py check FILE PROGRAM [ARG..]  yes on each design without a fault, else no with its fault; no on each faulty twin
    design_cases.py make_wide N SEED FILE     as make, without faults, and with registers as --wide reads them: conditions beside an edge,
                                              also behind a reset, several ifs of one edge, waits; then `run FILE PROGRAM --wide` and so on
    design_cases.py make_nets N SEED FILE     as make_wide, with loops of processes in which no net depends on itself
    design_cases.py make_resets N SEED FILE   as make_wide, with resets that are made inside, and resets behind the edge
    design_cases.py make_kept N SEED FILE     as make_wide, with variables that clocked processes keep; a trace shows them as GHDL's signals
                                              beside them, but those of a process without a label
    design_cases.py make_static N SEED FILE   as make_wide, with subtypes, attributes, aggregates, powers, constants of any type and so on
    design_cases.py make_numbers N SEED FILE  as make_wide, with integers that a run computes, and elements and slices at such places; where one
                                              leaves its range, GHDL's text has a condition that gives X
    design_cases.py make_objects N SEED FILE  as make_numbers, with integers and booleans as signals, ports and variables
    design_cases.py make_plain N SEED FILE    as make, with no weak letter in stimuli and literals, so that a 0 or 1 of GHDL's trace is one
    design_cases.py expect FILE PROGRAM       PROGRAM run --expect (also --levels, --event) of such designs with GHDL's values in a file: all
                                              hold; and with one letter turned over, that line is told

A design has registers on one or two clocks, with and without resets, combinational processes with variables and loops,
concurrent assignments, enumerations, generates, and instances that share nets. By construction it has no loop, and a value
for each target on each path. A third of the designs break a rule of the checker on purpose: several drivers of a net,
a clock made by logic, a latch, an edge beside other conditions, a sensitivity that is left out. They are run with --event.
"""
import collections
import json
import random
import re
import subprocess
import sys
import tempfile
from pathlib import Path

import designs
from computed import ComputedDesign, ours, theirs
from designs import HEAD, Design, Signal, beside
from objects import ObjectDesign
from static import StaticDesign

TOP = Path(__file__).resolve().parents[2]
sys.path.insert(0, str(TOP / "bridge"))
from dump import vcd  # noqa: E402
from raw.ghdl import called  # noqa: E402

NINE = "01010101010101LHXUZW-"
FORM = Design
BATCH = 50
DIGITS = {"0": "0", "l": "0", "1": "1", "h": "1", "z": "z"}

# stimulus and testbench


def stimulus(r, d):
    """lines, changes (time, input, value) and the stop; data inputs are left alone at active edges"""
    stop, changes, toggles = r.randint(60, 200), [], {}
    clocks = {"clk": (5, 5), "ck2": (r.randint(1, 12), r.randint(2, 9))}
    idle = [clocks.pop(n) and n for n in ("clk", "ck2") if not {(n, True), (n, False)} & d.edges]
    busy = set()
    for name, (first, half) in clocks.items():
        for k, t in enumerate(range(first, stop + 1, half)):
            toggles.setdefault(t, []).append((name, "10"[k % 2]))
            if (name, k % 2 == 0) in d.edges:
                busy.add(t)
    for s in [Signal("rst", "s", 1)] + d.in_ports:
        t = 0
        while t <= stop:
            if t not in busy and (t or r.random() < 0.95):
                changes.append((t, s, s.drawn(r, "01" if s.name == "rst" and r.random() < 0.9 else NINE)))
            t += r.randint(1, 60 if s.name == "rst" else 30)
    lines = [f"at {t} {s.name} {v}" for t, s, v in changes] + [f"clock {n} {f} {h}" for n, (f, h) in clocks.items()] + [f"at 0 {n} 0" for n in idle]
    r.shuffle(lines)
    return "\n".join(lines + [f"stop {stop}"]) + "\n", changes, toggles, stop


def testbench(d, changes, toggles):
    inputs, events = [Signal("rst", "s", 1)] + d.in_ports, collections.defaultdict(list)
    text = "{}entity tb_{} is end;\narchitecture t of tb_{} is\nsignal clk, ck2 : std_logic := '0';\n".format(HEAD, d.top, d.top)
    for s in inputs:
        first = [v for t, x, v in changes if x.name == s.name and t == 0]
        text += "signal {} : {}{};\n".format(s.name, s.type(), " := " + s.quoted(first[0]) if first else "")
    text += "begin\ndut: entity work.{} port map ({});\nprocess begin\n".format(
        d.top, ", ".join("{} => {}".format(n, n) for n in ["clk", "ck2"] + [s.name for s in inputs])
    )
    for t, s, v in changes:
        if t:
            events[t].append(f"{s.name} <= {s.quoted(v)};")
    for t, pairs in toggles.items():
        events[t] += ["%s <= '%s';" % p for p in pairs]
    last = 0
    for t in sorted(events):
        text += f'wait for {t - last} ns; {" ".join(events[t])}\n'
        last = t
    return text + "wait; end process;\nend;\n"


# traces


def trace(lines, stops, place):
    """{design: [(time, {name: digits})]}, what changes and up to its stop; place(scopes) is the design and the path in it"""
    out, last = {design: [] for design in stops}, {}
    for time, changed in vcd.moments(lines):
        now = {}
        for scopes, name, value in changed:
            design, path = place(scopes)
            if design in stops:
                name = name[3:].replace("_", ".") if name.startswith("zz_") else name
                now.setdefault(design, {})[".".join([*path, name])] = digits(name, value)
        for design, values in now.items():
            new = {name: value for name, value in values.items() if last.get((design, name)) != value}
            last.update(((design, name), value) for name, value in new.items())
            if new and time <= stops[design]:
                out[design].append((time, new))
    return out


def digits(name, value):
    """0, 1, z, else x; where an integer that may leave its range is none, GHDL has the least one"""
    value = "".join(DIGITS.get(it, "x") for it in value.lower())
    return 32 * "x" if name[0] == "o" and value == "1" + 31 * "0" else value


def accepted(text):
    with tempfile.TemporaryDirectory() as folder:
        open(folder + "/t.vhd", "w").write(text)
        p = called(folder, "-s", "--std=08", "t.vhd")
        return p.stderr if p.returncode else ""


def simulated(cases):
    """[(top, text, stop)]: GHDL's values of each; halves are tried where GHDL fails"""
    with tempfile.TemporaryDirectory() as folder:
        rows = "".join("u_{}: entity work.tb_{};\n".format(k, k) for k, _, _ in cases)
        open(folder + "/t.vhd", "w").write("".join(t for _, t, _ in cases) + f"entity tb is end;\narchitecture t of tb is\nbegin\n{rows}end;\n")
        stop = f"--stop-time={max(s for _, _, s in cases)}ns"
        for words in (
            ["-a", "-O0", "--std=08", "t.vhd"],
            ["-e", "--std=08", "tb"],
            ["-r", "--std=08", "tb", "--ieee-asserts=disable", stop, "--vcd=o.vcd"],
        ):
            p = called(folder, *words)
            if p.returncode == 0:
                continue
            if len(cases) == 1:
                print(cases[0][0], "GHDL:", (p.stdout + p.stderr)[:300], flush=True)
                return {}
            half = len(cases) // 2
            return {**simulated(cases[:half]), **simulated(cases[half:])}
        place = lambda s: (s[1][2:], s[3:]) if len(s) > 2 and s[0] == "tb" and s[2] == "dut" else (None, [])
        with open(folder + "/o.vcd") as f:
            return trace(f, {k: s for k, _, s in cases}, place)


# faulty twins


def twins(r, text):
    """texts with one edit, each with the fault that it brings"""
    out = []

    def edit(kind, pattern, change):
        found = list(re.finditer(pattern, text, re.M))
        if found:
            m = r.choice(found)
            out.append((kind, text[: m.start()] + change(m) + text[m.end() :]))

    edge = r"process \((clk|ck2)\) begin if ((?:rising|falling)_edge\(\1\)|[^;]*?'event[^;]*?) then "
    edit(
        "MissingSensitivity",
        r"^(  (?:p\d+: )?process )\(((?:[ienyr]\w+, )+)[eny]\w+\) ",
        lambda m: "{}({}) ".format(m.group(1), m.group(2).rstrip(", ")),
    )
    edit("EdgeNotSensitive", edge, lambda m: m.group().replace(f"process ({m.group(1)})", "process (i0)"))
    edit("EdgeNotSensitive", r"process \((clk|ck2), rst\)", lambda m: f"process ({m.group(1)})")
    edit("Mixed", edge, lambda m: m.group().replace(" begin ", " begin null; "))
    edit("ClockAsData", edge, lambda m: m.group() + f"if {m.group(1)} = '1' then null; end if; ")
    edit(
        "StoredVariable",
        r"^(  (?:p\d+: )?process \([^)]*\) (?:(?!begin ).)*begin )(v\d+) := ",
        lambda m: "{}{} := {}; {} := ".format(m.group(1), m.group(2), m.group(2), m.group(2)),
    )
    edit("TwoDrivers", r"^  (?:p\d+: )?(n\d+ <= [^;]*;)$", lambda m: m.group() + "\n  " + m.group(1))
    edit("Loop", r"^(  (?:p\d+: )?(n\d+) <= )((?:(?! when )[^;])*);$", lambda m: "{}({}) xor {};".format(m.group(1), m.group(3), m.group(2)))
    edit("Latch", r"^(  (?:p\d+: )?\w+ <= (?:(?! when )[^;])* when (?:(?! else )[^;])*) else [^;]*;$", lambda m: m.group(1) + ";")
    return out


# the commands


def is_wide():
    return designs.WIDE or designs.NETS or designs.RESETS or designs.KEPT or FORM is not Design


def make(n, seed, path):
    r, done, tried, refused = random.Random(seed), 0, 0, collections.Counter()
    with open(path, "w") as f:
        while done < n:
            batch = []
            while len(batch) < min(BATCH, n - done):
                d = FORM(r, f"d{done + len(batch)}")
                tried += 1
                unit = d.make(wild=not is_wide() and r.random() < 0.33)
                lines, changes, toggles, stop = stimulus(r, d)
                units = d.units + [unit]
                text, full = ours("".join(t for t, _ in units)), theirs("".join(beside(u) for u in units)) + testbench(d, changes, toggles)
                told = accepted(full)
                if told:
                    refused[re.sub(r"^[^ ]* ", "", told.split("\n")[0])[:60]] += 1
                    continue
                batch.append(
                    {
                        "top": d.top,
                        "source": text,
                        "stimulus": lines,
                        "stop": stop,
                        "fault": sorted(d.faults),
                        "full": full,
                        "faulty": [] if d.faults or is_wide() else twins(r, text),
                    }
                )
            values = simulated([(c["top"], c.pop("full"), c["stop"]) for c in batch])
            for c in batch:
                if c["top"] in values:
                    f.write(json.dumps({**c, "values": values[c["top"]]}) + "\n")
            f.flush()
            done += len(batch)
    print(f"made {done} of {tried} tried", dict(refused))


def call(program, words, files):
    with tempfile.TemporaryDirectory() as folder:
        for name, text in files.items():
            open("{}/{}".format(folder, name), "w").write(text)
        p = subprocess.run([program] + words, cwd=folder, capture_output=True, text=True)
    return p.returncode, p.stdout, p.stderr.strip()[:200]


def is_variable(name):
    """whether it is that of a variable of a process: without need of it none is kept"""
    return re.search(r"(^|\.)[p#]\d+\.x\d+$", name)


def run(path, program, words):
    bad = total = names = 0
    for c in map(json.loads, open(path)):
        if c["fault"] and "--event" not in words:
            continue
        total += 1
        status, out, told = call(program, ["run"] + words + ["s.vhd", c["top"], "t.stim"], {"s.vhd": c["source"], "t.stim": c["stimulus"]})
        if status:
            bad += 1
            print(c["top"], "status", status, told)
            continue
        mine = trace(out.split("\n"), {c["top"]: c["stop"]}, lambda s: (s[0], s[1:]))[c["top"]]
        theirs, a, b, diff = {t: v for t, v in c["values"]}, {}, {}, []
        mine = dict(mine)
        for t in sorted(set(mine) | set(theirs)):
            a.update(mine.get(t, {}))
            b.update(theirs.get(t, {}))
            names += len(a.keys() & b.keys())
            # GHDL leaves zeros out that lead an integer
            diff += [(t, n, a[n], b[n]) for n in a.keys() & b.keys() if a[n].lstrip("0") != b[n].lstrip("0")]
            odd = [n for n in a.keys() ^ b.keys() if not is_variable(n)]
            if odd:
                diff.append((t, "names", sorted(odd)[:3]))
        if diff:
            bad += 1
            print(c["top"], "differs:", diff[:3])
    print(f"{total} designs, {bad} bad, {names} values compared")
    return 1 if bad else 0


def check(path, program, words):
    bad, told = 0, collections.Counter()
    for c in map(json.loads, open(path)):
        for kind, text in [(" ".join(c["fault"]) or "yes", c["source"])] + c["faulty"]:
            status, out, error = call(program, ["check"] + words + ["s.vhd", c["top"]], {"s.vhd": text})
            good = out.startswith("yes\n") and status == 0 if kind == "yes" else status == 4 and all(f" {k} " in out for k in kind.split())
            told[kind, good] += 1
            if not good:
                bad += 1
                print(c["top"], kind, "not told:", status, out[:100].replace("\n", "; "), error)
    print(f"{sum(told.values())} verdicts, {bad} bad", sorted(told.items()))
    return 1 if bad else 0


# expected values


def settled(c):
    """[(time, name, digits)]: GHDL's values of all names, at each time at which one changes"""
    now, out = {}, []
    for t, new in c["values"]:
        now.update(new)
        out += [(t, n, v) for n, v in now.items()]
    return out


def turned(r, lines):
    """the lines, in one of which a 0 or a 1 is the other, and which one that is"""
    places = [(k, i) for k, l in enumerate(lines) for i in range(len(l[2])) if l[2][i] in "01" and not is_enumeration(l[1])]
    if not places:
        return None
    k, i = r.choice(places)
    t, n, v = lines[k]
    return lines[:k] + [(t, n, v[:i] + "10"[int(v[i])] + v[i + 1 :])] + lines[k + 1 :], k


def is_enumeration(name):
    return re.search(r"(^|\.)e\d+$", name)


def expected(name, digits):
    """how a file of expected values has it: the position of an enumeration's literal in decimal, and what GHDL prints as x as any value"""
    if is_enumeration(name):
        return str(int(digits, 2))
    return digits.replace("x", "-").upper()


def expect(path, program):
    bad = total = count = 0
    for c in map(json.loads, open(path)):
        r, all_values = random.Random(c["source"]), settled(c)
        lines = r.sample(all_values, min(200, len(all_values)))
        changed = turned(r, lines)
        for words in [["--event"]] if c["fault"] else [[], ["--levels"], ["--event"]]:
            for wanted, wrong in [(lines, None)] + ([changed] if changed else []):
                total += 1
                count += len(wanted)
                text = "".join(f"at {t} {n} {expected(n, v)}\n" for t, n, v in wanted)
                files = {"s.vhd": c["source"], "t.stim": c["stimulus"], "e.expect": text}
                status, _, told = call(program, ["run"] + words + ["--expect", "e.expect", "s.vhd", c["top"], "t.stim"], files)
                head = "" if wrong is None else "rtlsim: expect 1 Differs %d %s is " % wanted[wrong][:2]
                good = status == 0 if wrong is None else status == 9 and told.startswith(head) and told.endswith(f" line {wrong + 1}")
                if good and wrong is not None:
                    found = told[len(head) :].split(" ")[0]
                    right = expected(*lines[wrong][1:])
                    good = all(f == w or w == "-" for f, w in zip(found, right)) and len(found) == len(right)
                if not good:
                    bad += 1
                    print(c["top"], words, "status", status, told, wanted[wrong] if wrong is not None else "")
    print(f"{total} runs, {bad} bad, {count} expected values")
    return 1 if bad else 0


if __name__ == "__main__":
    if sys.argv[1] == "make_plain":
        NINE, designs.LETTERS, designs.IDLE = "01", "01", "Z-"
    if sys.argv[1] == "make_static":
        # GHDL 2.0 ends on one of a dozen
        FORM, BATCH = StaticDesign, 10
    if sys.argv[1] == "make_numbers":
        FORM = ComputedDesign
    if sys.argv[1] == "make_objects":
        FORM = ObjectDesign
    words = ("make_wide", "make_nets", "make_resets", "make_kept")
    designs.WIDE, designs.NETS, designs.RESETS, designs.KEPT = (sys.argv[1] == word for word in words)
    if sys.argv[1].startswith("make"):
        make(int(sys.argv[2]), int(sys.argv[3]), sys.argv[4])
    elif sys.argv[1] == "run":
        sys.exit(run(sys.argv[2], sys.argv[3], sys.argv[4:]))
    elif sys.argv[1] == "expect":
        sys.exit(expect(sys.argv[2], sys.argv[3]))
    else:
        sys.exit(check(sys.argv[2], sys.argv[3], sys.argv[4:]))
