"""Sums, products, comparisons and shifts, with and without a sign, by those of unsigned numbers."""
from .tree import Binary, Call, Index, Literal, Qualified, Shape, Slice, Unary

WIDEST = 64
SHIFTS = ("shift_left", "shift_right", "rotate_left", "rotate_right")


def zeros(width):
    return Literal(f'"{"0" * width}"')


def unsigned(it):
    return Call("unsigned", (it,))


def vector(it):
    return Call("std_logic_vector", (it,))


def both(left, right):
    return Binary("and", left, right)


class Numbers:
    def is_signed(self, it):
        match it:
            case Call(function="signed") | Qualified(type="signed"):
                return True
            case Call(function="resize" | "shift_left" | "shift_right"):
                return self.is_signed(it.arguments[0])
            case Unary():
                return self.is_signed(it.operand)
            case Binary():
                return self.is_signed(it.left) or self.is_signed(it.right)
        return False

    def plain(self, it):
        """The elements of a number, as a vector."""
        match it:
            case Call(function="unsigned" | "signed" | "std_logic_vector"):
                return self.plain(it.arguments[0])
            case Qualified():
                return self.value(it.value)
        return self.value(it)

    def number(self, it):
        """A number's elements as a std_logic_vector."""
        match it:
            case Call(function="unsigned" | "signed" | "std_logic_vector") | Qualified():
                return self.plain(it)
            case Call(function="resize"):
                return self.resized(it)
            case Call() if it.function in SHIFTS:
                return self.shifted(it)
            case Unary(operator="-"):
                return self.negated(self.plain(it.operand), self.width(it.operand))
            case Unary(operator="abs"):
                return self.absolute(it)
            case Binary(operator="+" | "-"):
                return vector(Binary(it.operator, unsigned(self.plain(it.left)), unsigned(self.plain(it.right))))
            case Binary(operator="*"):
                return self.product(it.left, it.right, self.width(it), self.is_signed(it))
            case Binary(operator="/" | "mod" | "rem"):
                return self.divided(it)
        self.refuse(f"an operation that isn't known: {getattr(it, 'function', getattr(it, 'operator', type(it).__name__))}")

    def named(self, it):
        """A name, declared from some high to a low, of this number's elements."""
        value = self.plain(it)
        return self.kept(value, self.width(it))

    def sign(self, name):
        """The leftmost element of a vector."""
        return Index(name, Literal(str(self.shape(name.text).high)))

    def below(self, name, count):
        """The rightmost elements of a vector."""
        shape = self.shape(name.text)
        if count == shape.width():
            return name
        if count == 1:
            return Index(name, Literal(str(shape.low)))
        return Slice(name, Literal(str(shape.low + count - 1)), Literal(str(shape.low)))

    def above(self, name, count):
        """The leftmost elements of a vector."""
        shape = self.shape(name.text)
        if count == shape.width():
            return name
        if count == 1:
            return Index(name, Literal(str(shape.high)))
        return Slice(name, Literal(str(shape.high)), Literal(str(shape.high - count + 1)))

    def joined(self, *parts):
        found = parts[0]
        for it in parts[1:]:
            found = Binary("&", found, it)
        return found

    def extended(self, it, width, is_signed):
        """A number's elements, as many as asked for: with zeros or signs to the left, or its rightmost."""
        own = self.width(it)
        if own == width:
            return self.plain(it)
        name = self.named(it)
        if own > width:
            found = self.below(name, width)
            return found if width > 1 else self.of_one(found)
        fill = [self.sign(name)] * (width - own) if is_signed else [zeros(width - own)]
        return self.joined(*fill, name)

    def resized(self, it):
        value, width = it.arguments[0], int(it.arguments[1].text)
        match value:
            case Binary(operator="*"):
                return self.product(value.left, value.right, width, self.is_signed(value))
            case Call(function="resize"):
                value = Call("signed" if self.is_signed(value) else "unsigned", (self.resized(value),))
        own = self.width(value)
        if self.is_signed(value) and own > width > 1:
            # what is cut off lies between the sign and the rest (numeric_std, RESIZE)
            name = self.named(value)
            return self.joined(self.sign(name), self.below(name, width - 1))
        return self.extended(value, width, self.is_signed(value))

    def negated(self, value, width):
        return vector(Binary("-", unsigned(zeros(width)), unsigned(value)))

    def absolute(self, it):
        name = self.named(it.operand)
        width = self.width(it.operand)
        found, negated = self.fresh(Shape(width - 1, 0)), self.negated(name, width)
        levels = [(negated, Binary("=", self.sign(name), Literal(level))) for level in ("'1'", "'H'")]
        # undefined where one element is (numeric_std, TO_01)
        self.assign(found, *levels, (vector(Binary("+", unsigned(name), unsigned(zeros(width)))), None))
        return found

    def product(self, left, right, width, is_signed):
        """The rightmost elements of a product. A product of two halves has at most the widest vector's elements."""
        if width * 2 <= WIDEST or not is_signed and self.width(left) + self.width(right) <= WIDEST:
            if is_signed:
                left, right = self.extended(left, width, True), self.extended(right, width, True)
            else:
                left, right = self.plain(left), self.plain(right)
            whole = Call("resize", (Binary("*", unsigned(left), unsigned(right)), Literal(str(width))))
            return vector(whole)
        if width > WIDEST:
            self.refuse(f"a product of {width} elements")
        half = WIDEST // 2
        left = self.kept(self.extended(left, width, is_signed), width)
        right = self.kept(self.extended(right, width, is_signed), width)
        low = lambda name: unsigned(self.below(name, half))
        high = lambda name: unsigned(self.above(name, width - half))
        size = Literal(str(width))
        lower = Call("resize", (Binary("*", low(left), low(right)), size))
        crossed = Binary("+", Call("resize", (Binary("*", high(left), low(right)), size)), Call("resize", (Binary("*", low(left), high(right)), size)))
        return vector(Binary("+", lower, Call("shift_left", (crossed, Literal(str(half))))))

    # quotients: one subtraction for each element, as with paper and pencil

    def divided(self, it):
        width = self.width(it)
        is_signed = self.is_signed(it)
        left, right = self.named(self.sized(it.left, width, is_signed)), self.named(self.sized(it.right, width, is_signed))
        if not is_signed:
            return self.quotient(left, right, width)[it.operator != "/"]
        own, other = self.magnitude(left, width), self.magnitude(right, width)
        quotient, rest = self.quotient(own, other, width)
        if it.operator == "/":
            return self.turned(quotient, Binary("/=", self.sign(left), self.sign(right)), width)
        rest = self.turned(rest, Binary("=", self.sign(left), Literal("'1'")), width)
        if it.operator == "rem":
            return rest
        found = self.fresh(Shape(width - 1, 0))
        differs = both(Binary("/=", self.sign(left), self.sign(right)), Binary("/=", rest, zeros(width)))
        self.assign(found, (vector(Binary("+", unsigned(rest), unsigned(right))), differs), (rest, None))
        return found

    def sized(self, it, width, is_signed):
        return Call("signed" if is_signed else "unsigned", (self.extended(it, width, is_signed),))

    def magnitude(self, name, width):
        return self.turned(name, Binary("=", self.sign(name), Literal("'1'")), width)

    def turned(self, name, condition, width):
        """The number, with its sign turned where the condition holds."""
        found = self.fresh(Shape(width - 1, 0))
        self.assign(found, (self.negated(name, width), condition), (name, None))
        return found

    def quotient(self, left, right, width):
        """The quotient and the rest of two numbers without a sign."""
        if width >= WIDEST:
            self.refuse(f"a quotient of {width} elements")
        quotient, rest = self.fresh(Shape(width - 1, 0)), self.kept(zeros(width), width)
        wide = self.kept(Binary("&", Literal('"0"'), right), width + 1)
        low = self.shape(left.text).low
        for at in reversed(range(width)):
            here = self.kept(Binary("&", rest, Index(left, Literal(str(low + at)))), width + 1)
            fits = Binary(">=", unsigned(here), unsigned(wide))
            less = self.fresh(Shape(width, 0))
            self.assign(less, (vector(Binary("-", unsigned(here), unsigned(wide))), fits), (here, None))
            self.assign(Index(quotient, Literal(str(at))), (Literal("'1'"), fits), (Literal("'0'"), None))
            rest = self.kept(self.below(less, width), width) if width > 1 else self.of_one(self.below(less, 1))
        return quotient, rest

    # comparisons

    def relation(self, it):
        width = max(self.width(it.left), self.width(it.right))
        if self.is_signed(it) and self.width(it.left) != self.width(it.right):
            it = Binary(it.operator, *(Call("signed", (self.extended(side, width, True),)) for side in (it.left, it.right)))
        left, right = self.compared(it.left), self.compared(it.right)
        if it.operator in ("=", "/=") and not (self.is_number(it.left) or self.is_number(it.right)):
            return Binary(it.operator, self.value(it.left), self.value(it.right))
        if it.operator in ("=", "/=") or not self.is_signed(it):
            return Binary(it.operator, unsigned(left), unsigned(right))
        return Binary(it.operator, unsigned(self.shifted_up(it.left)), unsigned(self.shifted_up(it.right)))

    def is_number(self, it):
        match it:
            case Call(function="unsigned" | "signed" | "resize") | Qualified(type="unsigned" | "signed"):
                return True
            case Binary(operator="+" | "-" | "*"):
                return True
        return False

    def compared(self, it):
        return self.plain(it) if self.is_number(it) else self.value(it)

    def shifted_up(self, it):
        """The elements with the leftmost turned: numbers with a sign in their order, as numbers without one."""
        value = self.plain(it)
        if isinstance(value, Literal):
            first = {"0": "1", "1": "0", "L": "1", "H": "0"}.get(value.text[1], "X")
            return Literal(f'"{first}{value.text[2:]}')
        name, width = self.kept(value, self.width(it)), self.width(it)
        turned = Unary("not", self.sign(name))
        return self.of_one(turned) if width == 1 else Binary("&", turned, self.below(name, width - 1))

    # shifts

    def shifted(self, it):
        value, count = it.arguments
        while isinstance(count, Call) and count.function in ("to_integer", "unsigned") or isinstance(count, Qualified):
            count = count.value if isinstance(count, Qualified) else count.arguments[0]
        name, width = self.named(value), self.width(value)
        is_signed = self.is_signed(value)
        if isinstance(count, Literal):
            places = int(count.text[1:-1], 2) if count.is_string() else int(count.text)
            return self.moved(it.function, name, width, places, is_signed)
        count = self.named(count)
        low = self.shape(count.text).low
        for at in range(self.width(count)):
            found = self.fresh(Shape(width - 1, 0))
            step = self.moved(it.function, name, width, 1 << at, is_signed)
            self.assign(found, (step, Binary("=", Index(count, Literal(str(low + at))), Literal("'1'"))), (name, None))
            name = found
        return name

    def moved(self, function, name, width, places, is_signed):
        """A vector's elements moved by so many places."""
        if function.startswith("rotate"):
            places %= width
        if places == 0:
            return name
        if function == "rotate_left":
            return self.joined(self.below(name, width - places), self.above(name, places))
        if function == "rotate_right":
            return self.joined(self.below(name, places), self.above(name, width - places))
        fill = min(places, width)
        if function == "shift_left":
            parts = [self.below(name, width - fill)] * (fill < width) + [zeros(fill)]
        elif is_signed:
            parts = [self.sign(name)] * fill + [self.above(name, width - fill)] * (fill < width)
        else:
            parts = [zeros(fill)] + [self.above(name, width - fill)] * (fill < width)
        return self.joined(*parts) if width > 1 else self.of_one(self.joined(*parts)) if not isinstance(parts[0], Literal) else parts[0]
