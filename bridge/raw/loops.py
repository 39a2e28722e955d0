"""Which signals hang on themselves."""
from .tree import Aggregate, Assign, Binary, Call, Index, Instance, Name, Qualified, Select, Slice, Unary


def parts_of(it):
    """What a concatenation joins, the leftmost first."""
    return parts_of(it.left) + parts_of(it.right) if isinstance(it, Binary) and it.operator == "&" else [it]


def names_in(it):
    """The names that a value reads."""
    match it:
        case Name():
            return {it.text}
        case Index() | Slice():
            return names_in(it.base)
        case Call():
            return set().union(*map(names_in, it.arguments))
        case Qualified():
            return names_in(it.value)
        case Aggregate():
            return set().union(*(names_in(value) for _, value in it.parts))
        case Unary():
            return names_in(it.operand)
        case Binary():
            return names_in(it.left) | names_in(it.right)
    return set()


def looped(body, entities):
    """The signals that hang on themselves, each vector taken as a whole, through assignments and instances."""
    reads = {}
    for it in body:
        match it:
            case Assign():
                own = set().union(*(names_in(part) for pair in it.parts for part in pair if part))
                reads.setdefault(next(iter(names_in(it.target))), set()).update(own)
            case Select():
                own = names_in(it.selector).union(*(names_in(value) for value, _ in it.parts))
                reads.setdefault(next(iter(names_in(it.target))), set()).update(own)
            case Instance() if it.entity in entities:
                modes = {port.name: port.kind for port in entities[it.entity].ports}
                own = set().union(*(names_in(actual) for formal, actual in it.ports if actual and modes[formal] == "in"))
                for formal, actual in it.ports:
                    for name in names_in(actual) if actual and modes[formal] == "out" else ():
                        reads.setdefault(name, set()).update(own)
    return on_loops(reads)


def on_loops(reads):
    """The names from which a way along what they read leads back to them: those of the strongly connected parts (Tarjan)."""
    numbers, lowest, stack, waiting, found = {}, {}, [], set(), set()
    for start in reads:
        if start in numbers:
            continue
        ways = [(start, iter(reads[start]))]
        numbers[start] = lowest[start] = len(numbers)
        stack.append(start)
        waiting.add(start)
        while ways:
            name, others = ways[-1]
            other = next((it for it in others if it in reads), None)
            if other is None:
                ways.pop()
                if ways:
                    lowest[ways[-1][0]] = min(lowest[ways[-1][0]], lowest[name])
                if lowest[name] == numbers[name]:
                    part = [stack.pop()]
                    while part[-1] != name:
                        part.append(stack.pop())
                    waiting.difference_update(part)
                    found.update(part if len(part) > 1 or name in reads[name] else ())
            elif other not in numbers:
                numbers[other] = lowest[other] = len(numbers)
                stack.append(other)
                waiting.add(other)
                ways.append((other, iter(reads[other])))
            elif other in waiting:
                lowest[name] = min(lowest[name], numbers[other])
    return found
