"""The moments of a dump: the times at which inputs change, what is moved behind a clock's edge, and the unit of the times."""
from dataclasses import dataclass, field

from .vcd import FEMTOSECONDS, Refused


@dataclass
class Moment:
    """A time at which inputs change: their letters, those that are moved behind it, and the letters of all else before the next moment."""

    time: int
    inputs: dict = field(default_factory=dict)
    moved: set = field(default_factory=set)
    settled: dict = field(default_factory=dict)


@dataclass
class Run:
    """What a dump has of a design: its moments and its end in the dump's units, the fs of one of these and of one unit that is to be
    written, and whether the letters are of the nine values."""

    length: int
    is_nine: bool
    moments: list = field(default_factory=lambda: [Moment(0)])
    end: int = 0
    unit: int = 1

    def time(self, moment):
        return moment.time * self.length // self.unit

    def settled(self, moment):
        """When all is there that changes with a moment: one unit later where something is moved."""
        return self.time(moment) + bool(moment.moved)

    def stop(self):
        return max(-(-self.end * self.length // self.unit), self.settled(self.moments[-1]))

    def add(self, inputs, others):
        """Adds the inputs that change at the end; `others` are the letters of all else before it."""
        if inputs and self.end:
            self.moments[-1].settled = dict(others)
            self.moments.append(Moment(self.end))
        self.moments[-1].inputs |= inputs


def read(dump, signals):
    """What a dump has of these joined signals."""
    owners = {}
    for it in signals:
        for code in it.codes:
            owners.setdefault(code, []).append(it)
    run, values, inputs, others = Run(dump.unit, "ghdl" in dump.version.lower()), {}, {}, {}
    for run.end, changed in dump.moments():
        news = {code: letters for code, letters in changed.items() if code in owners}
        values |= news
        run.is_nine = run.is_nine or not set("uwlh-").isdisjoint("".join(news.values()).lower())
        letters = {it: it.letters(values) for code in news for it in owners[code]}
        driven = {it.name: found for it, found in letters.items() if it.signal.is_input and found not in (None, inputs.get(it.name))}
        run.add(driven, others)
        inputs |= driven
        others |= {it.name: found for it, found in letters.items() if not it.signal.is_input}
    run.moments[-1].settled = others
    return run


def move(moments, clocks, kept):
    """Marks what is moved: what changes behind 0 with a clock, and is neither one nor among those that are kept."""
    for it in moments[1:]:
        if not clocks.isdisjoint(it.inputs):
            it.moved = it.inputs.keys() - clocks - kept


def misfit(run, unit):
    """Why the moments don't fit into times of whole units of so many fs; nothing if they do."""
    for it, following in zip(run.moments, [*run.moments[1:], None]):
        time = it.time * run.length
        if time % unit:
            return f"inputs change at {told(time)}, which isn't whole in units of {told(unit)}"
        if it.moved and following and following.time * run.length <= time + unit:
            return f"inputs that change with a clock at {told(time)} can't be moved by {told(unit)}: others change at {told(following.time * run.length)}"
    return ""


def set_unit(run, unit):
    """Gives a run this unit, or else the longest that fits: a power of ten, of at most a ns or the dump's own unit, if that is longer."""
    longest = len(str(max(run.length, FEMTOSECONDS["ns"]))) - 1
    units = [unit] if unit else [10**power for power in range(longest, -1, -1)]
    run.unit = next((it for it in units if not misfit(run, it)), None)
    if not run.unit:
        raise Refused(misfit(run, units[-1]))


def told(fs):
    """A time in the longest unit in which it is whole."""
    name = next(name for name, length in FEMTOSECONDS.items() if fs % length == 0)
    return f"{fs // FEMTOSECONDS[name]} {name}"
