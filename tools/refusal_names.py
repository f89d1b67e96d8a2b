"""What is refused in expressions, selects, targets and statements, for compare-refusals.py.

Each function adds to a list what it finds, as (number, place, detail). Of a list the lowest number counts, of one
number the earliest place, of one place the first, so a node is judged behind its parts.
"""
from refusal_values import (LIMIT, NoValue, constant_number, is_constant, sign, size, size_of_target, try_size, value)

UNKNOWN, PORT, RANGE, CLOCK, NOT_CONSTANT, ZERO, WIDE, KIND = 3, 4, 7, 10, 11, 12, 13, 15


def judge_expr(expr, scope, found, constant=False):
    """The refusals of an expression but for divisors of 0, which depend on where it stands."""
    kind = expr.kind
    if kind == "name":
        judge_name(expr, scope, found, constant)
    elif kind == "binary" and expr.op in ("/", "%"):
        judge_expr(expr.left, scope, found, True)
        judge_expr(expr.right, scope, found, True)
    elif kind == "repl":
        judge_expr(expr.count, scope, found, True)
        count = constant_number(expr.count, scope)
        if count is not None and count < 1:
            found.append((RANGE, expr.place, None))
        for each in expr.parts:
            judge_expr(each, scope, found, constant)
    else:
        for each in expr.children():
            judge_expr(each, scope, found, constant)
    wide = try_size(expr, scope)
    if wide is not None and wide > LIMIT:
        found.append((WIDE, expr.place, wide))


def judge_name(expr, scope, found, constant):
    entry = scope.find(expr.word)
    if entry is None or entry.kind == "genvar" and not scope.within(entry):
        found.append((UNKNOWN, expr.place, expr.word))
    elif entry.clock:
        found.append((CLOCK, expr.place, None))
    if entry is not None and constant:
        if not is_constant(entry) or entry.kind == "param" and not scope.usable(entry):
            found.append((NOT_CONSTANT, expr.place, None))
    judge_selects(expr, entry, scope, found, constant or entry is not None and is_constant(entry))


def judge_selects(node, entry, scope, found, constant):
    """The selects of a name or a target; `constant` says that each index has to be."""
    for select in node.selects:
        judge_expr(select.first, scope, found, constant or select.kind == "part")
        if select.kind != "index":
            judge_expr(select.last, scope, found, True)
    if entry is None:
        return
    if is_constant(entry):
        judge_constant_selects(node, entry, scope, found)
        return
    form = scope.reader.form(entry)
    if form is None:
        return
    selects, ranged = node.selects, form.ranged
    if form.words is not None:
        if not selects:
            found.append((RANGE, node.place, None))
            return
        if selects[0].kind != "index":
            found.append((RANGE, selects[0].place, None))
        selects, ranged = selects[1:], True
    for position, select in enumerate(selects):
        if position or not ranged:
            found.append((RANGE, select.place, None))
        elif not is_right(select, scope, form.left >= form.right):
            found.append((RANGE, select.place, None))


def judge_constant_selects(node, entry, scope, found):
    if not node.selects:
        return
    shape = scope.reader.bounds_of_constant(entry, scope)
    if shape is None:
        return
    for position, select in enumerate(node.selects):
        if position or shape[1] != 0 or shape[0] < 0 or not is_right(select, scope, True):
            found.append((RANGE, select.place, None))


def is_right(select, scope, down):
    """Are the bounds of a select, as far as they have numbers, within 32 bits and in the declared direction?"""
    if select.kind == "index":
        return True
    last = constant_number(select.last, scope)
    if select.kind == "plus":
        return last is None or last >= 1
    first = constant_number(select.first, scope)
    if any(each is not None and not -(1 << 31) <= each < 1 << 31 for each in (first, last)):
        return False
    return first is None or last is None or (first >= last if down else first <= last)


def judge_target(target, scope, found, use):
    """A target; `use` is block, assign or initial."""
    if target.kind == "targets":
        for each in target.parts:
            judge_target(each, scope, found, use)
    else:
        entry = scope.find(target.word)
        if entry is None:
            found.append((UNKNOWN, target.place, target.word))
        else:
            if entry.clock:
                found.append((CLOCK, target.place, None))
            if not may_assign(entry, use, scope):
                found.append((KIND, target.place, target.word))
        judge_selects(target, entry, scope, found, use != "block")
    wide = target_size(target, scope)
    if wide is not None and wide > LIMIT:
        found.append((WIDE, target.place, wide))


def may_assign(entry, use, scope):
    if is_constant(entry) or entry.kind == "in" or entry.free:
        return False
    return entry.kind == ("net" if use == "assign" else "reg")


def target_size(target, scope):
    try:
        return size_of_target(target, scope)
    except NoValue:
        return None


def judge_divisors(expr, width, with_sign, scope, found):
    """Each division by 0, at the size and sign that the context gives, None where they aren't known."""
    kind = expr.kind
    if kind in ("name", "target"):
        for select in expr.selects:
            for each in select.children():
                own_divisors(each, scope, found)
    elif kind == "paren" or kind == "unary" and expr.op in ("+", "-", "~"):
        judge_divisors(expr.inner, width, with_sign, scope, found)
    elif kind == "binary":
        binary_divisors(expr, width, with_sign, scope, found)
    elif kind == "cond":
        own_divisors(expr.test, scope, found)
        judge_divisors(expr.yes, width, with_sign, scope, found)
        judge_divisors(expr.no, width, with_sign, scope, found)
    else:
        for each in expr.children():
            own_divisors(each, scope, found)


def binary_divisors(expr, width, with_sign, scope, found):
    op = expr.op
    if op in ("<<", ">>", "<<<", ">>>"):
        judge_divisors(expr.left, width, with_sign, scope, found)
        own_divisors(expr.right, scope, found)
    elif op in ("&&", "||"):
        own_divisors(expr.left, scope, found)
        own_divisors(expr.right, scope, found)
    elif op in ("==", "!=", "===", "!==", "<", "<=", ">", ">="):
        common_divisors([expr.left, expr.right], scope, found)
    else:
        judge_divisors(expr.left, width, with_sign, scope, found)
        judge_divisors(expr.right, width, with_sign, scope, found)
        if op in ("/", "%") and width is not None and divides_by_zero(expr.right, width, with_sign, scope):
            found.append((ZERO, expr.place, None))


def divides_by_zero(divisor, width, with_sign, scope):
    if width > LIMIT:
        return False
    try:
        return value(divisor, width, with_sign, scope) == 0
    except NoValue:
        return False


def own_divisors(expr, scope, found):
    common_divisors([expr], scope, found)


def common_divisors(exprs, scope, found, least=0):
    """Divisors of expressions that are evaluated at the largest of their sizes, signed where all are."""
    try:
        width = max([least] + [size(each, scope) for each in exprs])
        with_sign = all(sign(each, scope) for each in exprs)
    except NoValue:
        width, with_sign = None, False
    for each in exprs:
        judge_divisors(each, width, with_sign, scope, found)


def assigned_divisors(expr, width, scope, found):
    """Divisors of what is assigned to a target of a width, None where that isn't known."""
    own_width = try_size(expr, scope)
    wide = max(width or 0, own_width or 0)
    common_divisors([expr], scope, found, 0 if width is None or wide > LIMIT else width)


def judge_constant(expr, scope, found):
    """A constant expression by itself; its number, read by its own sign, or None."""
    before = len(found)
    judge_expr(expr, scope, found, True)
    own_divisors(expr, scope, found)
    return constant_number(expr, scope) if len(found) == before else None


def judge_own(expr, scope, found):
    judge_expr(expr, scope, found)
    own_divisors(expr, scope, found)


def judge_stmt(stmt, scope, found):
    kind = stmt.kind
    if kind == "block":
        for each in stmt.body:
            judge_stmt(each, scope, found)
    elif kind == "if":
        judge_own(stmt.test, scope, found)
        judge_stmt(stmt.yes, scope, found)
        if stmt.no is not None:
            judge_stmt(stmt.no, scope, found)
    elif kind == "case":
        labels = [each for arm in stmt.arms for each in arm.labels or []]
        for each in [stmt.value] + labels:
            judge_expr(each, scope, found)
        common_divisors([stmt.value] + labels, scope, found)
        for arm in stmt.arms:
            judge_stmt(arm.body, scope, found)
    elif kind == "assume":
        judge_own(stmt.value, scope, found)
    elif kind == "set":
        judge_set(stmt.target, stmt.value, scope, found, "block", False)


def judge_set(target, expr, scope, found, use, constant):
    """An assignment in a block, of an `assign` or of an `initial`."""
    judge_target(target, scope, found, use)
    own_target_divisors(target, scope, found)
    judge_expr(expr, scope, found, constant)
    assigned_divisors(expr, target_size(target, scope), scope, found)


def own_target_divisors(target, scope, found):
    if target.kind == "targets":
        for each in target.parts:
            own_target_divisors(each, scope, found)
    else:
        judge_divisors(target, None, False, scope, found)


def judge_initial(stmt, scope, found):
    if stmt.kind == "block":
        for each in stmt.body:
            judge_initial(each, scope, found)
    else:
        judge_set(stmt.target, stmt.value, scope, found, "initial", True)


def judge_output(conn, word, scope, found):
    """The connection of an output: a net, a constant select of a net or a concatenation of these."""
    expr = conn.value
    judge_expr(expr, scope, found)
    own_divisors(expr, scope, found)
    if not is_goal(expr, scope, found):
        found.append((PORT, conn.place, word))


def is_goal(expr, scope, found):
    """Is this such an expression? Inputs of the module are, and are refused otherwise."""
    if expr.kind == "concat":
        return all([is_goal(each, scope, found) for each in expr.parts])
    if expr.kind != "name":
        return False
    entry = scope.find(expr.word)
    if entry is None:
        return True
    if not is_constant(entry) and scope.reader.form(entry) is None:
        return True  # its declaration is refused, and no use of it before
    if entry.kind not in ("net", "in"):
        return False
    constant = all(is_constant_expr(each, scope) for select in expr.selects for each in select.children())
    if entry.kind == "in" and not entry.clock or entry.kind == "net" and entry.free:
        found.append((KIND, expr.place, expr.word))
    return constant


def is_constant_expr(expr, scope):
    """Are all names of the expression constants? An unknown one is refused otherwise."""
    for node in expr.walk():
        if node.kind == "name":
            entry = scope.find(node.word)
            if entry is not None and not is_constant(entry):
                return False
    return True

