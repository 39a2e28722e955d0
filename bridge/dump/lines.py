"""The lines of a stimulus and of expected values."""


def changes_of(run, name):
    """The changes of an input: times and letters."""
    return [((run.settled if name in it.moved else run.time)(it), it.inputs[name].upper()) for it in run.moments if name in it.inputs]


def period(changes, stop):
    """The first rise and the half period of a clock that changes so up to the stop, if there is one; in fewer than two periods there is none."""
    if len(changes) < 4:
        return None
    first = changes[1][0] if changes[0][1] == "0" else 0
    half = changes[2][0] - changes[1][0]
    made = [(0, "0")] * (first > 0) + [(time, "10"[at % 2]) for at, time in enumerate(range(first, stop + 1, half))]
    return (first, half) if made == changes else None


def stimulus(run, inputs, clocks):
    """The lines of the stimulus: clocks first, then the changes of the other inputs in order of their times."""
    stop, rest = run.stop(), []
    for name in inputs:
        changes = changes_of(run, name)
        clock = period(changes, stop) if name in clocks else None
        if clock:
            yield f"clock {name} {clock[0]} {clock[1]}"
        else:
            rest += [(time, name, letters) for time, letters in changes]
    yield from (f"at {time} {name} {letters}" for time, name, letters in sorted(rest, key=lambda it: it[0]))
    yield f"stop {stop}"


def value(letters, is_position, is_nine):
    """A value as it is to be expected: x of four values is anything, and so is a literal's position that isn't known."""
    if is_position:
        return str(int(letters, 2)) if set(letters) <= set("01") else "-"
    return letters.upper() if is_nine else letters.upper().replace("X", "-")


def expected(run, signals):
    """The lines of the expected values: of each signal at each moment, once all has settled; none where anything may be."""
    for moment in run.moments:
        for it in signals:
            letters = moment.settled.get(it.name)
            text = value(letters, it.is_position, run.is_nine) if letters else "-"
            if set(text) != {"-"}:
                yield f"at {run.settled(moment)} {it.name} {text}"
