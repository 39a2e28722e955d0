"""Which nets have no values but 0 and 1."""
from .tree import Aggregate, Assign, Binary, Call, If, Index, Literal, Name, Process, Qualified, Select, Slice, Unary


def is_defined(it, names):
    """Whether a value has 0 and 1 alone, if these names have."""
    match it:
        case Literal():
            return not it.text.startswith(("'", '"')) or set(it.text[1:-1]) <= set("01")
        case Name():
            return it.text in names
        case Index() | Slice():
            return is_defined(it.base, names)
        case Qualified():
            return is_defined(it.value, names)
        case Aggregate():
            return all(is_defined(value, names) for _, value in it.parts)
        case Call():
            return all(is_defined(part, names) for part in it.arguments)
        case Unary():
            return is_defined(it.operand, names)
        case Binary():
            return it.operator not in ("/", "mod", "rem") and is_defined(it.left, names) and is_defined(it.right, names)
    return False


def base_name(it):
    return it.text if isinstance(it, Name) else base_name(it.base)


def values_of(entity, is_sure):
    """Pairs of a name and a value that it may have; None for one that isn't known."""
    for it in entity.body:
        match it:
            case Assign():
                sure = len(it.parts) == 1 and is_sure(it)
                yield from ((base_name(it.target), Literal("'0'") if sure else value) for value, _ in it.parts)
            case Select():
                yield from ((base_name(it.target), value) for value, _ in it.parts)
            case Process(types=[]):
                branches = [body for part in it.body if isinstance(part, If) for _, body in part.parts]
                yield from ((base_name(part.target), part.parts[0][0]) for body in branches for part in body)
    starts = {it.name: it.value for it in entity.declared if hasattr(it, "kind") and it.kind == "signal"}
    registers = {base_name(part.target) for it in entity.body if isinstance(it, Process) for each in it.body if isinstance(each, If)
                 for _, body in each.parts for part in body if isinstance(part, Assign)}
    yield from ((name, starts.get(name)) for name in registers)


def known(entity, is_sure):
    """The nets that have no values but 0 and 1: the most that can be, each by the others. `is_sure` tells the gates that give no others."""
    values = {}
    for name, value in values_of(entity, is_sure):
        values.setdefault(name, []).append(value)
    names, constants = set(values), {it.name: [it.value] for it in entity.declared if hasattr(it, "kind") and it.kind == "constant"}
    values |= constants
    names |= constants.keys()
    is_changed = True
    while is_changed:
        others = {name for name in names if not all(value is not None and is_defined(value, names) for value in values[name])}
        names -= others
        is_changed = bool(others)
    return names
