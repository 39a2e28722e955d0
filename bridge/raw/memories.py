"""Memories: small ones become a register for each word, and those that are only read a choice among values."""
from .tree import Aggregate, Assign, Binary, Call, If, Literal, Name, Process, Qualified, Select, Shape

WORDS = 64


def literal(text, shape):
    return Literal(f"'{text}'" if shape.is_bit else f'"{text}"')


def holds(condition):
    """Whether a condition is that of two equal literals, which is always so."""
    match condition:
        case Binary(operator="=", left=Qualified(value=Literal() as left), right=Literal() as right):
            return left == right
    return False


class Access:
    """One read or write of a memory: at an edge and where something enables it, or always."""

    def __init__(self, edge, enable, assign, is_write):
        self.edge, self.enable, self.assign, self.is_write = edge, enable, assign, is_write

    def value(self):
        return self.assign.parts[0][0]

    def index(self):
        return (self.assign.target if self.is_write else self.value()).at


class Memories:
    def memory(self, it):
        """A process that keeps a memory in its variable."""
        shape, words = it.types[0].shape, it.types[0].words
        accesses = [self.access(part) for part in it.body]
        starts = self.starts(it.variables[0].value, words, shape.width())
        writes = [access for access in accesses if access.is_write]
        if not writes:
            cells = [literal(start, shape) for start in starts]
        elif words > WORDS:
            self.refuse(f"a memory of {words} words")
        else:
            cells = [self.fresh(shape, literal(start, shape)) for start in starts]
            self.write_cells(cells, writes)
        before = []
        for access in accesses:
            if access.is_write:
                before.append(access)
            else:
                self.read_cells(cells, access, before)

    def starts(self, value, words, width):
        """What the words hold at first."""
        if value is None:
            return ["U" * width] * words
        if not isinstance(value, Aggregate):
            self.refuse("a memory's first words of a form that isn't known")
        found = ["U" * width] * words
        for at, (choice, part) in enumerate(value.parts):
            text = self.value(part)
            if isinstance(text, Aggregate):
                text = Literal(f'"{text.parts[0][1].text[1:-1] * width}"')
            text = text.text[1:-1]
            places = range(words) if choice == "others" else [at if choice is None else choice]
            if isinstance(choice, tuple):
                places = range(choice[1], choice[0] + 1)
            for place in places:
                found[place] = text
        return found

    def access(self, it):
        edge = enable = None
        if isinstance(it, If):
            if len(it.parts) != 1 or len(it.parts[0][1]) != 1 or not isinstance(it.parts[0][1][0], Assign):
                self.refuse("a memory's process of a form that isn't known")
            condition, (assign,) = it.parts[0]
            match condition:
                case Binary(operator="and", left=Call() as edge, right=enable):
                    pass
                case Call() as edge:
                    pass
                case enable:
                    self.refuse("a memory that is written without an edge")
        else:
            assign = it
        if enable and holds(enable):
            enable = None
        return Access(edge and self.edge(edge), enable and self.condition(enable), assign, assign.is_variable)

    def address(self, it):
        """The vector that a word's number is of."""
        while isinstance(it, Call) and it.function in ("to_integer", "unsigned") or isinstance(it, Qualified):
            it = it.value if isinstance(it, Qualified) else it.arguments[0]
        return self.kept(self.value(it), self.width(it))

    def write_cells(self, cells, writes):
        """The words' register: of several writes at one edge the last one stays."""
        if any(access.edge != writes[0].edge for access in writes):
            self.refuse("a memory that is written at the edges of two clocks")
        if writes[0].edge is None:
            self.refuse("a memory that is written without an edge")
        body = []
        for access in writes:
            address = self.address(access.index())
            data = self.value(access.value())
            each = [If([(Binary("=", Call("unsigned", (address,)), Literal(str(at))), [Assign(cell, [(data, None)])])]) for at, cell in enumerate(cells)]
            body += [If([(access.enable, each)])] if access.enable else each
        self.body.append(Process(list(writes[0].edge.arguments), [], [], [If([(writes[0].edge, body)])], self.place))

    def read_cells(self, cells, access, before):
        """A read: what the word holds, or what is being written to it at the same edge."""
        address = self.address(access.index())
        width = self.width(address)
        found = self.fresh(self.target_shape(access.assign.target))
        parts = [(cell, [Literal(f'"{at:0{width}b}"')]) for at, cell in enumerate(cells) if at < 1 << width]
        # an address that isn't a number is 0 (numeric_std, TO_INTEGER)
        self.body.append(Select(address, found, parts + [(cells[0], [])], self.place))
        if access.edge is None:
            self.assign(access.assign.target, (found, None))
            return
        for write in before:
            if write.edge == access.edge:
                found = self.passed_on(write, address, found)
        body = [Assign(access.assign.target, [(found, None)])]
        body = [If([(access.enable, body)])] if access.enable else body
        self.body.append(Process(list(access.edge.arguments), [], [], [If([(access.edge, body)])], self.place))

    def target_shape(self, target):
        return self.shape(target.text) if isinstance(target, Name) else Shape(self.width(target) - 1, 0)

    def passed_on(self, write, address, found):
        other = self.address(write.index())
        same = Binary("=", Call("unsigned", (address,)), Call("unsigned", (other,)))
        condition = Binary("and", same, write.enable) if write.enable else same
        result = self.fresh(Shape(self.width(found) - 1, 0))
        self.assign(result, (self.value(write.value()), condition), (found, None))
        return result
