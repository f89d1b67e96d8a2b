"""Scopes, sizes, signs and values of constant expressions (IEEE 1364-2005 section 5) for compare-refusals.py.

A size or a value that an expression doesn't have is NoValue: a name without a declaration or with a refused one, what
isn't constant where a number is asked for, a division by 0, a count below 1, a size above 128 bits.
"""

LIMIT = 128
CONTEXT = set("+ - * / % & | ^ ~^ ^~".split())
SHIFTS = set("<< >> <<< >>>".split())
EQUAL = set("== != === !==".split())
ORDER = set("< <= > >=".split())


class NoValue(Exception):
    pass


class Entry:
    """A declared name: its kind (param, genvar, net, reg or in), its node, and the declaration that it stands in."""

    def __init__(self, kind, word, node, holder, scope):
        self.kind, self.word, self.node, self.holder, self.scope = kind, word, node, holder, scope
        self.free = kind in ("net", "reg") and holder.kind == "decl" and any(
            word.split("=")[0].strip() in ("anyseq", "anyconst") for word in holder.attrs)
        self.clock, self.override, self.var = False, None, None
        self.constant, self.form = None, None


class Scope:
    """The names of a module, a generate block, or none: then it is a place of its own for a genvar or a parameter."""

    def __init__(self, parent, prefix="", reader=None):
        self.parent, self.prefix, self.names, self.bound, self.before = parent, prefix, {}, {}, None
        self.reader = reader or parent.reader
        self.seen, self.explicit, self.constructs = {}, set(), 0
        self.sizes, self.varying = {}, {}

    def find(self, word):
        scope = self
        while scope is not None:
            if word in scope.names:
                return scope.names[word]
            scope = scope.parent
        return None

    def turn(self, entry):
        """The number that a loop around gives a genvar, or None."""
        scope = self
        while scope is not None:
            if entry in scope.bound:
                return scope.bound[entry]
            scope = scope.parent
        return None

    def within(self, entry):
        """Is this inside a loop over the genvar? Its number may be unknown there."""
        scope = self
        while scope is not None:
            if entry in scope.bound:
                return True
            scope = scope.parent
        return False

    def usable(self, entry):
        """May a parameter be used here? Within a parameter only those before it may."""
        scope = self
        while scope is not None:
            if scope.before is not None:
                return entry.node.at < scope.before
            scope = scope.parent
        return True

    def child(self):
        return Scope(self, self.prefix)


def is_constant(entry):
    return entry.kind in ("param", "genvar")


def constant_of(entry, scope):
    """Width, sign and number of a parameter or genvar that may be used here."""
    if entry.kind == "genvar":
        number = scope.turn(entry)
        if number is None:
            raise NoValue
        return 32, True, number % (1 << 32)
    if entry.kind != "param" or not scope.usable(entry):
        raise NoValue
    constant = scope.reader.constant(entry)
    if constant is None:
        raise NoValue
    return constant


def part_width(select, scope):
    if select.kind == "index":
        return 1
    if select.kind == "plus":
        width = number(select.last, scope)
        if width < 1:
            raise NoValue
        return width
    first, last = number(select.first, scope), number(select.last, scope)
    if not all(-(1 << 31) <= each < 1 << 31 for each in (first, last)):
        raise NoValue
    return abs(first - last) + 1


def size_of_name(expr, scope):
    """The size of a name with its selects, in an expression or a target."""
    entry = scope.find(expr.word)
    if entry is None:
        raise NoValue
    if is_constant(entry):
        width = constant_of(entry, scope)[0]
        selects, memory = expr.selects, False
    else:
        form = scope.reader.form(entry)
        if form is None:
            raise NoValue
        width, memory, selects = form.width, form.words is not None, expr.selects
    if memory:
        if not selects or selects[0].kind != "index":
            raise NoValue
        selects = selects[1:]
    elif selects and not is_constant(entry) and not form.ranged:
        raise NoValue
    if not selects:
        return width
    if len(selects) > 1 or not against(expr, scope, selects[0]):
        raise NoValue
    return part_width(selects[0], scope)


def against(expr, scope, select):
    """Does a part-select keep to the declared direction, as far as it is known?"""
    entry = scope.find(expr.word)
    if is_constant(entry):
        shape = scope.reader.bounds_of_constant(entry, scope)
        if shape is None or shape[1] != 0 or shape[0] < 0:
            return False
        down = True
    else:
        form = scope.reader.form(entry)
        down = form.left >= form.right
    if select.kind != "part":
        return True
    first, last = number(select.first, scope), number(select.last, scope)
    return first >= last if down else first <= last


def size(expr, scope):
    """The self-determined size; each is found once in a scope."""
    got = scope.sizes.get(expr, -1)
    if got == -1:
        try:
            got = size_anew(expr, scope)
        except NoValue:
            got = None
        scope.sizes[expr] = got
    if got is None:
        raise NoValue
    return got


def size_anew(expr, scope):
    kind = expr.kind
    if kind in ("num", "wild"):
        return expr.width
    if kind == "name":
        return size_of_name(expr, scope)
    if kind in ("paren", "sys"):
        return size(expr.inner, scope)
    if kind == "unary":
        inner = size(expr.inner, scope)
        return inner if expr.op in ("+", "-", "~") else 1
    if kind == "binary":
        left, right = size(expr.left, scope), size(expr.right, scope)
        if expr.op in CONTEXT:
            return max(left, right)
        return left if expr.op in SHIFTS else 1
    if kind == "cond":
        size(expr.test, scope)
        return max(size(expr.yes, scope), size(expr.no, scope))
    total = sum(size(each, scope) for each in expr.parts)
    if kind == "concat":
        return total
    count = number(expr.count, scope)
    if count < 1:
        raise NoValue
    return count * total


def size_of_target(target, scope):
    if target.kind == "targets":
        return sum(size_of_target(each, scope) for each in target.parts)
    return size_of_name(target, scope)


def sign_of_name(expr, scope):
    entry = scope.find(expr.word)
    if entry is None:
        raise NoValue
    if is_constant(entry):
        return not expr.selects and constant_of(entry, scope)[1]
    form = scope.reader.form(entry)
    if form is None:
        raise NoValue
    whole = len(expr.selects) == (1 if form.words is not None else 0)
    return form.signed and whole


def sign(expr, scope):
    kind = expr.kind
    if kind in ("num", "wild"):
        return expr.signed
    if kind == "name":
        return sign_of_name(expr, scope)
    if kind == "paren":
        return sign(expr.inner, scope)
    if kind == "sys":
        return expr.op == "$signed"
    if kind == "unary":
        return expr.op in ("+", "-", "~") and sign(expr.inner, scope)
    if kind == "binary":
        if expr.op in CONTEXT:
            return sign(expr.left, scope) and sign(expr.right, scope)
        return expr.op in SHIFTS and sign(expr.left, scope)
    if kind == "cond":
        return sign(expr.yes, scope) and sign(expr.no, scope)
    return False


def signed(value, width):
    return value - (1 << width) if value >> (width - 1) & 1 else value


def extend(value, width, wide, with_sign):
    if with_sign and width < wide:
        value = signed(value, width)
    return value % (1 << wide)


def own(expr, scope):
    """The number of an expression by its own size and sign."""
    width = size(expr, scope)
    if width > LIMIT:
        raise NoValue
    return value(expr, width, sign(expr, scope), scope)


def number(expr, scope):
    """The same, read as a signed number where the expression is signed."""
    got = own(expr, scope)
    return signed(got, size(expr, scope)) if sign(expr, scope) else got


def value_of_name(expr, scope):
    entry = scope.find(expr.word)
    if entry is None or not is_constant(entry):
        raise NoValue
    width, _, got = constant_of(entry, scope)
    if not expr.selects:
        return got
    size_of_name(expr, scope)
    select = expr.selects[0]
    low = number(select.last if select.kind == "part" else select.first, scope)
    wide = part_width(select, scope)
    if wide > LIMIT:
        raise NoValue
    moved = got >> low if low >= 0 else got << min(-low, 256)
    return moved % (1 << wide)


def reduced(op, got, width):
    ones, odd = got == (1 << width) - 1, bin(got).count("1") % 2 == 1
    return int({"!": got == 0, "&": ones, "~&": not ones, "|": got != 0, "~|": got == 0, "^": odd, "~^": not odd,
                "^~": not odd}[op])


def arithmetic(op, left, right, width, with_sign):
    if op in ("/", "%"):
        if right == 0:
            raise NoValue
        if with_sign:
            left, right = signed(left, width), signed(right, width)
        quotient = abs(left) // abs(right) * (1 if (left < 0) == (right < 0) else -1)
        return quotient if op == "/" else left - quotient * right
    return {"+": left + right, "-": left - right, "*": left * right, "&": left & right, "|": left | right,
            "^": left ^ right}.get(op, ~(left ^ right))


def compared(op, left, right):
    return int({"==": left == right, "===": left == right, "!=": left != right, "!==": left != right, "<": left < right,
                "<=": left <= right, ">": left > right, ">=": left >= right}[op])


def value_of_binary(expr, width, with_sign, scope):
    op = expr.op
    if op in CONTEXT:
        left, right = (value(each, width, with_sign, scope) for each in (expr.left, expr.right))
        return arithmetic(op, left, right, width, with_sign)
    if op in SHIFTS:
        left, by = value(expr.left, width, with_sign, scope), own(expr.right, scope)
        if op in ("<<", "<<<"):
            return left << by if by < 256 else 0
        return (signed(left, width) if op == ">>>" and with_sign else left) >> min(by, 256)
    if op in ("&&", "||"):
        left, right = own(expr.left, scope) != 0, own(expr.right, scope) != 0
        return int(left and right if op == "&&" else left or right)
    wide = max(size(expr.left, scope), size(expr.right, scope))
    if wide > LIMIT:
        raise NoValue
    both = sign(expr.left, scope) and sign(expr.right, scope)
    left, right = (value(each, wide, both, scope) for each in (expr.left, expr.right))
    return compared(op, signed(left, wide) if both else left, signed(right, wide) if both else right)


def value(expr, width, with_sign, scope):
    """The number below 2 to the width that the expression has where size and sign come from its context."""
    return value_in(expr, width, with_sign, scope) % (1 << width)


def value_in(expr, width, with_sign, scope):
    kind = expr.kind
    if kind == "num":
        return extend(expr.value, expr.width, width, with_sign)
    if kind == "name":
        got = value_of_name(expr, scope)
        return extend(got, size(expr, scope), width, with_sign)
    if kind == "paren":
        return value(expr.inner, width, with_sign, scope)
    if kind == "sys":
        return extend(own(expr.inner, scope), size(expr.inner, scope), width, with_sign)
    if kind == "unary":
        if expr.op in ("+", "-", "~"):
            got = value(expr.inner, width, with_sign, scope)
            return {"+": got, "-": -got, "~": ~got}[expr.op]
        return reduced(expr.op, own(expr.inner, scope), size(expr.inner, scope))
    if kind == "binary":
        return value_of_binary(expr, width, with_sign, scope)
    if kind == "cond":
        test = own(expr.test, scope)
        yes, no = (value(each, width, with_sign, scope) for each in (expr.yes, expr.no))
        return yes if test else no
    if size(expr, scope) > LIMIT:
        raise NoValue
    got = 0
    for each in expr.parts:
        got = got << size(each, scope) | own(each, scope)
    one, total = got, sum(size(each, scope) for each in expr.parts)
    for _ in range(number(expr.count, scope) - 1 if kind == "repl" else 0):
        got = got << total | one
    return got


def constant_number(expr, scope):
    """The number of a constant expression, or None where it has none."""
    try:
        return number(expr, scope)
    except NoValue:
        return None


def try_size(expr, scope):
    try:
        return size(expr, scope)
    except NoValue:
        return None
