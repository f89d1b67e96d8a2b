"""The second reading of the order of drivers, the weight and the port, for compare-refusals.py.

Sets of bits are whole numbers, bit 0 being the one at the right bound; a memory's words follow one another.
"""
from refusal_rules import BITS, TOO_MANY_BITS, Refused
from refusal_values import is_constant, number, part_width, size, size_of_target

LOOP, LATCH, TWO_DRIVERS, UNDRIVEN, SHARED, MIXED = range(1, 7)
MISSING, WIDTH, NEEDS_ALIGNED = range(1, 4)
FIELDS = [("rvfi_valid", 1), ("rvfi_order", 64), ("rvfi_insn", 32), ("rvfi_trap", 1), ("rvfi_halt", 1),
          ("rvfi_intr", 1),
          ("rvfi_mode", 2), ("rvfi_ixl", 2), ("rvfi_rs1_addr", 5), ("rvfi_rs2_addr", 5), ("rvfi_rs1_rdata", 32),
          ("rvfi_rs2_rdata", 32), ("rvfi_rd_addr", 5), ("rvfi_rd_wdata", 32), ("rvfi_pc_rdata", 32),
          ("rvfi_pc_wdata", 32), ("rvfi_mem_addr", 32), ("rvfi_mem_rmask", 4), ("rvfi_mem_wmask", 4),
          ("rvfi_mem_rdata", 32), ("rvfi_mem_wdata", 32)]
NOT_ASKED = {"rvfi_mode", "rvfi_ixl"}


def varies(expr, scope):
    """Does a name that is no constant stand in the expression?"""
    got = scope.varying.get(expr)
    if got is None:
        if expr.kind == "name":
            got = not is_constant(scope.find(expr.word)) or any(varies(each, scope) for each in expr.selects)
        else:
            got = any(varies(each, scope) for each in expr.children())
        scope.varying[expr] = got
    return got


def moves(select, scope):
    return select.kind != "part" and varies(select.first, scope)


def var_of(node, scope):
    entry = scope.find(node.word)
    return None if is_constant(entry) or entry.clock else entry.var


def bits_of(selects, form, scope):
    """The bits of a vector that constant selects reach."""
    everything = (1 << form.width) - 1
    if not selects:
        return everything
    select = selects[0]
    first = number(select.first, scope)
    last = first if select.kind == "index" else number(select.last, scope)
    if select.kind == "plus":
        last = first + part_width(select, scope) - 1
    down = form.left >= form.right
    ends = sorted(each - form.right if down else form.right - each for each in (first, last))
    low, high = max(ends[0], 0), min(ends[1], form.width - 1)
    return (1 << high + 1) - (1 << low) if low <= high else 0


def reach(node, var, scope):
    """The bits that a name or target with its selects reaches, and whether they vary."""
    form, selects = var.form, node.selects
    if any(moves(each, scope) for each in selects):
        return (1 << var.bits) - 1, True
    if form.words is None:
        return bits_of(selects, form, scope), False
    word = number(selects[0].first, scope)
    place = word - form.words[1] if form.words[0] >= form.words[1] else form.words[1] - word
    if not 0 <= place < form.count:
        return 0, False
    return bits_of(selects[1:], form, scope) << place * form.width, False


def reads_of(expr, scope):
    """Each name that an expression reads, with its bits."""
    for node in expr.walk():
        if node.kind == "name":
            var = var_of(node, scope)
            if var is not None:
                yield var, reach(node, var, scope)[0]


def goals(target):
    if target.kind == "targets":
        for each in target.parts:
            yield from goals(each)
    else:
        yield target


class Effects:
    """What a driver reads and drives. `sure` has the bits that each path so far assigns, `known` those by `=` alone."""

    def __init__(self, driver):
        self.driver, self.place, self.kind = driver, driver.place, driver.kind
        self.reads, self.drives, self.twice = {}, {}, {}
        self.blocking, self.later = set(), set()
        self.sure, self.known = {}, {}
        if driver.kind == "assign":
            self.assign()
        else:
            self.sure, self.known = self.statement(driver.body, {}, {})

    def assign(self):
        driver = self.driver
        if driver.source is not None:
            self.reads[driver.source.var] = (1 << driver.source.var.bits) - 1
        else:
            self.read(driver.value, driver.scope, {})
        if driver.var is not None:
            self.drive(driver.var.var, (1 << driver.var.var.bits) - 1)
            return
        for each in goals(driver.target) if driver.source is None else names_in(driver.target):
            var = var_of(each, driver.goal_scope)
            if var is not None:
                self.drive(var, reach(each, var, driver.goal_scope)[0])

    def drive(self, var, mask):
        self.twice[var] = self.twice.get(var, 0) | self.drives.get(var, 0) & mask
        self.drives[var] = self.drives.get(var, 0) | mask

    def read(self, expr, scope, known):
        for var, mask in reads_of(expr, scope):
            left = mask & ~known.get(var, 0)
            if left:
                self.reads[var] = self.reads.get(var, 0) | left

    def statement(self, stmt, sure, known):
        scope, kind = self.driver.scope, stmt.kind
        if kind == "block":
            for each in stmt.body:
                sure, known = self.statement(each, sure, known)
        elif kind == "if":
            self.read(stmt.test, scope, known)
            ends = [self.statement(stmt.yes, sure, known)]
            ends.append(self.statement(stmt.no, sure, known) if stmt.no is not None else (sure, known))
            sure, known = common(each[0] for each in ends), common(each[1] for each in ends)
        elif kind == "case":
            for each in [stmt.value] + [label for arm in stmt.arms for label in arm.labels or []]:
                self.read(each, scope, known)
            ends = [self.statement(arm.body, sure, known) for arm in stmt.arms]
            if all(arm.labels for arm in stmt.arms):
                ends.append((sure, known))
            sure, known = common(each[0] for each in ends), common(each[1] for each in ends)
        elif kind == "assume":
            self.read(stmt.value, scope, known)
        elif kind == "set":
            return self.set(stmt, sure, known)
        return sure, known

    def set(self, stmt, sure, known):
        scope = self.driver.scope
        self.read(stmt.value, scope, known)
        for goal in goals(stmt.target):
            for select in goal.selects:
                for each in select.children():
                    self.read(each, scope, known)
        sure, known = dict(sure), dict(known)
        for goal in goals(stmt.target):
            var = var_of(goal, scope)
            mask, moving = reach(goal, var, scope)
            (self.blocking if stmt.op == "=" else self.later).add(var)
            self.drives[var] = self.drives.get(var, 0) | mask
            if not moving:
                sure[var] = sure.get(var, 0) | mask
                if stmt.op == "=":
                    known[var] = known.get(var, 0) | mask
        return sure, known


def names_in(expr):
    """The names of an output's connection."""
    if expr.kind == "concat":
        for each in expr.parts:
            yield from names_in(each)
    else:
        yield expr


def common(maps):
    """The bits that all maps have."""
    maps = list(maps)
    return {var: bits for var in maps[0] if (bits := all_of(each.get(var, 0) for each in maps))}


def all_of(masks):
    got = -1
    for each in masks:
        got &= each
    return got


def lowest(mask):
    return (mask & -mask).bit_length() - 1


class Flow:
    def __init__(self, reader):
        self.vars, self.reader = reader.vars, reader
        self.effects = [Effects(each) for each in reader.drivers]

    def too_many_bits(self):
        driven = {}
        for each in self.effects:
            if each.kind == "comb":
                for var, mask in each.drives.items():
                    driven[var] = driven.get(var, 0) | mask
        count = sum(each.bits - bin(driven.get(each, 0)).count("1") for each in self.vars
                    if each.kind == "reg" and not each.free)
        if count > BITS:
            raise Refused((TOO_MANY_BITS, None, str(count)))

    def next_of(self):
        """For each driver but clocked ones those that drive what it reads."""
        by_var = {}
        for number_, each in enumerate(self.effects):
            if each.kind != "clocked":
                for var, mask in each.drives.items():
                    by_var.setdefault(var, []).append((number_, mask))
        return [[] if each.kind == "clocked" else sorted(
            {driver for var, mask in each.reads.items() for driver, bits in by_var.get(var, []) if bits & mask})
                for each in self.effects]

    def in_loops(self):
        """The drivers that can be reached from themselves."""
        nexts = self.next_of()
        found = []
        for start in range(len(nexts)):
            seen, open_ = set(), list(nexts[start])
            while open_:
                each = open_.pop()
                if each not in seen:
                    seen.add(each)
                    open_.extend(nexts[each])
            if start in seen:
                found.append(start)
        return found

    def is_loop(self, places):
        """Are these the places of a loop that names each driver once and begins with the earliest place?"""
        nexts = self.next_of()
        if not places or places[0] != min(places):
            return False

        def go(path):
            if len(path) == len(places):
                return path[0] in nexts[path[-1]]
            return any(self.effects[each].place == places[len(path)] and each not in path and go(path + [each])
                       for each in nexts[path[-1]])
        return any(self.effects[each].place == places[0] and go([each]) for each in range(len(nexts)))

    def check(self):
        if self.in_loops():
            raise Refused((LOOP, None, self.is_loop))
        for judge in (self.latch, self.two_drivers, self.undriven, self.shared, self.mixed):
            for var in self.vars:
                judge(var)

    def earliest(self, var):
        """The place of the earliest driver that assigns the name."""
        return min(each.place for each in self.effects
                   if var in each.drives or var in each.blocking or var in each.later)

    def latch(self, var):
        if any(each.kind == "comb" and each.drives.get(var, 0) & ~each.sure.get(var, 0) for each in self.effects):
            raise Refused((LATCH, self.earliest(var), var.full))

    def two_drivers(self, var):
        is_memory = var.form.words is not None
        pairs = [(each, each.drives[var], each.twice.get(var, 0)) for each in self.effects if each.drives.get(var, 0)]
        if is_memory:
            pairs = [(each, 1, 0) for each, _, _ in pairs]
        once = twice = 0
        for _, mask, doubled in pairs:
            twice |= once & mask | doubled
            once |= mask
        if not twice:
            return
        bit = lowest(twice)
        places = sorted(each.place for each, mask, doubled in pairs for has in (mask, doubled) if has >> bit & 1)
        raise Refused((TWO_DRIVERS, places[0], (var.full, bit, places[1])))

    def undriven(self, var):
        if var.free or not (var.kind == "net" or var.is_input):
            return
        if var.entry.clock:
            return
        driven = 0
        for each in self.effects:
            driven |= each.drives.get(var, 0)
        left = (1 << var.bits) - 1 & ~driven
        if left:
            raise Refused((UNDRIVEN, None, f"{var.full},{lowest(left)}"))

    def shared(self, var):
        for each in self.effects:
            if each.kind == "clocked" and var in each.blocking:
                if any(other is not each and other.reads.get(var, 0) for other in self.effects):
                    raise Refused((SHARED, self.earliest(var), var.full))

    def mixed(self, var):
        blocking = any(var in each.blocking for each in self.effects)
        later = any(var in each.later for each in self.effects)
        if blocking and later or any(each.kind == "comb" and var in each.later for each in self.effects):
            raise Refused((MIXED, self.earliest(var), var.full))


# The weight.

def weight_of_selects(node, scope):
    """A name or a target: words and vectors at indices that vary, and the operators in its indices."""
    total = sum(weight_by_itself(each, scope) for select in node.selects for each in select.children())
    var = var_of(node, scope)
    if var is None:
        return total
    selects, form = node.selects, var.form
    if form.words is not None:
        total, selects = total + form.count * form.width, selects[1:]
    return total + (form.width if any(moves(each, scope) for each in selects) else 0)


def weight_by_itself(expr, scope):
    return weight_of(expr, size(expr, scope), scope)


def weight_of(expr, width, scope):
    """The weight of an expression that is evaluated at a width."""
    kind = expr.kind
    if kind == "name":
        return weight_of_selects(expr, scope)
    if kind in ("num", "wild") or not varies(expr, scope):
        return 0
    if kind == "paren":
        return weight_of(expr.inner, width, scope)
    if kind == "unary":
        if expr.op in ("+", "-", "~"):
            return (width if expr.op == "~" else 8 * width) + weight_of(expr.inner, width, scope)
        inner = size(expr.inner, scope)
        return inner + weight_of(expr.inner, inner, scope)
    if kind == "binary":
        return weight_of_binary(expr, width, scope)
    if kind == "cond":
        return width + weight_by_itself(expr.test, scope) + sum(
            weight_of(each, width, scope) for each in (expr.yes, expr.no))
    if kind == "sys":
        return weight_by_itself(expr.inner, scope)
    return sum(weight_by_itself(each, scope) for each in expr.parts)


def weight_of_binary(expr, width, scope):
    op, left, right = expr.op, size(expr.left, scope), size(expr.right, scope)
    if op in ("<<", ">>", "<<<", ">>>"):
        return 8 * width + weight_of(expr.left, width, scope) + weight_of(expr.right, right, scope)
    if op in ("&&", "||"):
        return max(left, right) + weight_of(expr.left, left, scope) + weight_of(expr.right, right, scope)
    if op in ("==", "!=", "===", "!==", "<", "<=", ">", ">="):
        width = max(left, right)
        factor = 8 if op in ("<", "<=", ">", ">=") else 1
    else:
        factor = {"+": 8, "-": 8, "*": 8 * width}.get(op, 1)
    return factor * width + sum(weight_of(each, width, scope) for each in (expr.left, expr.right))


def assigned_in(stmt, scope):
    """The vectors that a statement assigns."""
    return {var for node in stmt.walk() if node.kind == "set" for goal in goals(node.target)
            for var in [var_of(goal, scope)] if var.form.words is None}


def weight_of_stmt(stmt, scope):
    kind = stmt.kind
    if kind == "block":
        return sum(weight_of_stmt(each, scope) for each in stmt.body)
    if kind == "assume":
        return weight_by_itself(stmt.value, scope)
    if kind == "set":
        width = max(size_of_target(stmt.target, scope), size(stmt.value, scope))
        return weight_of(stmt.value, width, scope) + sum(weight_of_selects(each, scope) for each in goals(stmt.target))
    if kind not in ("if", "case"):
        return 0
    total = sum(each.form.width for each in assigned_in(stmt, scope))
    if kind == "if":
        return total + weight_by_itself(stmt.test, scope) + sum(
            weight_of_stmt(each, scope) for each in (stmt.yes, stmt.no) if each is not None)
    labels = [label for arm in stmt.arms for label in arm.labels or []]
    width = max(size(each, scope) for each in [stmt.value] + labels)
    total += len(labels) * width + sum(weight_of(each, width, scope) for each in [stmt.value] + labels)
    return total + sum(weight_of_stmt(arm.body, scope) for arm in stmt.arms)


def weight(reader):
    total = 0
    for each in reader.drivers:
        if each.kind != "assign":
            total += weight_of_stmt(each.body, each.scope)
        elif each.source is None:
            targets = [] if each.var is not None else list(goals(each.target))
            wide = each.var.var.form.width if each.var is not None else size_of_target(each.target, each.goal_scope)
            total += weight_of(each.value, max(wide, size(each.value, each.scope)), each.scope)
            total += sum(weight_of_selects(goal, each.goal_scope) for goal in targets)
    return total


# The port.

def check_port(reader, wants_imem, wants_dmem, aligned):
    outputs = {each.full: each for each in reader.vars if each.entry.node.kind == "port"
               and each.entry.node.lead.direction == "output" and not each.entry.scope.prefix}
    fields = [each for each in FIELDS if each[0] not in NOT_ASKED]
    fields += [("imem_addr", 32), ("imem_data", 16)] if wants_imem else []
    fields += [("dmem_addr", 32)] if wants_dmem else []
    for field, width in fields:
        if field not in outputs:
            raise Refused((MISSING, None, field))
        found = outputs[field].form.width
        if found != width:
            raise Refused((WIDTH, None, f"{field},{found},{width}"))
    if wants_dmem and not aligned:
        raise Refused((NEEDS_ALIGNED, None, None))

