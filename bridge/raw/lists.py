"""Sensitivity lists as the sources have them.

GHDL's gates know of none: what a process reads wakes them, and in a simulation of the source it doesn't where the list leaves it out. Such a process is
written as one again, with its own list: its gates as variables, each behind those that it reads, and then what it assigns. A register or a latch has the
list, and as variables the gates that it asks: what a register loads is there before the edge.
"""
import re

from .latches import names_of, reads
from .starts import filled, literal
from .tree import Assign, Binary, Call, Declared, Event, If, Index, Literal, Name, Process, Select, Slice

PART = re.compile(r"_part\d+$")


class Beyond(Exception):
    """A process that can't be written so."""


def base(it):
    return it.text if isinstance(it, Name) else base(it.base)


def assigned(it):
    """The names that a statement assigns."""
    match it:
        case Assign() | Select():
            return {base(it.target)}
        case If():
            return set().union(*(assigned(part) for _, body in it.parts for part in body))
        case Process():
            return set().union(*map(assigned, it.body))
    return set()


def made(gates):
    return set().union(*map(assigned, gates))


def clock(it):
    """The signal of whose edge a condition is, or None."""
    match it:
        case Call(function="rising_edge" | "falling_edge", arguments=(Name(text=name),)) | Event(signal=Name(text=name)):
            return name
    return None


def is_joined(it):
    """Whether a value is joined of names, their parts and literals."""
    if isinstance(it, Binary):
        return it.operator == "&" and is_joined(it.left) and is_joined(it.right)
    return isinstance(it, (Name, Index, Slice, Literal))


def is_wiring(it):
    return isinstance(it, Assign) and len(it.parts) == 1 and is_joined(it.parts[0][0])


def equal(selector, choices):
    """The condition of a choice; None of others."""
    found = None
    for it in choices:
        one = Binary("=", selector, it)
        found = one if found is None else Binary("or", found, one)
    return found


def sequential(it, is_variable):
    """A concurrent assignment as a statement of a process."""
    parts = [(value, equal(it.selector, them)) for value, them in it.parts] if isinstance(it, Select) else it.parts
    branches = [(condition, [Assign(it.target, [(value, None)], is_variable=is_variable)]) for value, condition in parts]
    return branches[0][1][0] if branches[0][0] is None else If(branches)


class Lists:
    """An entity that is written; `signals` are those names of it that the source has too, `starts` what they start with."""

    def __init__(self, entity, signals, starts):
        self.entity, self.starts, self.moved = entity, starts, set()
        self.shapes = {it.name: it.shape for it in (*entity.ports, *entity.declared)}
        self.signals = {name for name in self.shapes if PART.sub("", name) in signals}
        self.makers = {}
        for it in entity.body:
            for name in assigned(it):
                self.makers.setdefault(name, []).append(it)

    def parts(self, name):
        """A signal by its name, or the parts that it is in."""
        return [name] if name in self.shapes else [it for it in self.shapes if PART.sub("", it) == name]

    def keep(self, listed, targets, place):
        """Gives a process its list; whether there was anything to change."""
        if not all(map(self.parts, listed)):
            raise Beyond
        sensitive = {part for name in listed for part in self.parts(name)}
        makers = [it for target in targets for part in self.parts(target) for it in self.makers.get(part, [])]
        plain = [it for it in makers if not isinstance(it, Process)]
        gates, states = self.gates(set().union(*map(reads, plain)))
        states += [it for it in makers if isinstance(it, Process)]
        if states and not all(map(is_wiring, (*gates, *plain))):
            raise Beyond
        if states:
            return any([self.keep_state(it, sensitive, place) for it in states])
        last = [sequential(it, False) for it in plain]
        is_changed = bool(last) and self.put(plain, gates, set().union(*map(reads, plain)), sensitive, last, place)
        for it in self.entity.declared if is_changed else ():
            text = filled(self.starts.get(it.name, "-"), it.shape.width())
            if it.name in targets and len(text) == it.shape.width() and text != "-":
                it.value = literal(text, it.shape)
        return is_changed

    def gates(self, names):
        """The gates that give these names their values, each behind those that it reads, and the registers and latches before them."""
        found, states, path = [], [], []

        def visit(name):
            for it in () if name in self.signals else self.makers.get(name, ()):
                if any(it is part for part in path):
                    raise Beyond
                if isinstance(it, Process):
                    states.extend([] if any(it is part for part in states) else [it])
                elif not any(it is part for part in found):
                    path.append(it)
                    for part in sorted(reads(it)):
                        visit(part)
                    found.append(path.pop())

        for name in sorted(names):
            visit(name)
        return found, states

    def keep_state(self, it, sensitive, place):
        """Gives a register or a latch this list."""
        asked, clocks = self.asked(it)
        return self.put([it], self.before(asked), asked, sensitive | clocks, it.body, place)

    def asked(self, it):
        """What a register asks and loads before its edge, and its clocks; of a latch all that it reads."""
        branches = [branch for part in it.body if isinstance(part, If) for branch in part.parts]
        clocks = {name for name in (clock(condition) for condition, _ in branches) if name}
        if not clocks:
            return reads(it) - {"all"} - assigned(it), clocks
        own = [(names_of(condition), *map(reads, body)) for condition, body in branches if not clock(condition)]
        return set().union(*(names for each in own for names in each)), clocks

    def before(self, asked):
        gates, states = self.gates(asked)
        if states:
            raise Beyond
        return gates

    def load(self, it):
        """A register that loads no literal before its edge is woken by what it loads, and by what it asks for that."""
        asked, clocks = self.asked(it)
        loads = [part for inner in it.body if isinstance(inner, If) for condition, body in inner.parts if clocks and not clock(condition) for part in body]
        if any(map(reads, loads)):
            gates = self.before(asked)
            self.put([it], gates, asked, set().union(asked, clocks, *map(reads, gates)) - made(gates), it.body, it.place, True)

    def put(self, old, gates, asked, sensitive, body, place, is_new=False):
        """A process with this list in place of these statements, where what it asks is more than that, or the list is new."""
        if not is_new and set().union(asked, *map(reads, gates)) - made(gates) <= sensitive:
            return False
        variables = [Declared("variable", name, self.shapes[name]) for name in sorted(made(gates))]
        names = [it for it in self.shapes if it in sensitive]
        new = Process([Name(it) for it in names], [], variables, [*(sequential(it, True) for it in gates), *body], place)
        at = next(at for at, it in enumerate(self.entity.body) if it is old[0])
        self.entity.body[at] = new
        self.entity.body = [it for it in self.entity.body if not any(it is part for part in old)]
        self.moved |= made(gates)
        return True

    def drop(self):
        """Drops the gates that are variables now and read by nothing else."""
        is_changed = True
        while is_changed:
            read = set().union(*(reads(it) - ({part.name for part in it.variables} if isinstance(it, Process) else set()) for it in self.entity.body))
            gone = self.moved - read
            left = [it for it in self.entity.body if isinstance(it, Process) or not assigned(it) & gone]
            is_changed = len(left) < len(self.entity.body)
            self.entity.body = left
            self.entity.declared = [it for it in self.entity.declared if it.name not in gone]


def listed(entity, signals, facts):
    """Gives the processes of an entity their lists; what is to be said of those that leave out what they read."""
    starts = {words[1]: words[3] for words in map(str.split, facts.values()) if words[0] == "signal"}
    it, notes = Lists(entity, signals, starts), []
    for place, fact in facts.items():
        match re.fullmatch(r"forgotten (.*?) of (\S+) list (.*) assigns (.*)", fact):
            case None if fact.startswith("forgotten "):
                names, kept = fact.split()[1:], False
            case None:
                continue
            case found:
                if not (entity.name + "_").startswith(found[2] + "_"):
                    continue
                names = found[1].split()
                kept = attempt(it.keep, found[3].split(), found[4].split(), place)
        if kept is not None:
            how = "so is what is written" if kept else "what is written is sensitive to all"
            notes.append((place, f"the process reads {', '.join(names)}, which its sensitivity list leaves out; {how}"))
    for part in [part for part in it.entity.body if isinstance(part, Process) and not facts.get(part.place, "").startswith("forgotten ")]:
        attempt(it.load, part)
    it.drop()
    return notes


def attempt(done, *words):
    """Whether what was asked for is done; None where there was nothing to change, False where it can't be."""
    try:
        return done(*words) or None
    except Beyond:
        return False
