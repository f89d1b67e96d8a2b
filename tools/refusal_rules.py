"""The second reading of the rules of elaboration, for compare-refusals.py: the walk over a source from its top module.

The first refused step of the walk is answered; of it the lowest number, of one number the earliest place.
"""
from refusal_names import (assigned_divisors, judge_constant, judge_expr, judge_initial, judge_output, judge_set,
                           judge_stmt)
from refusal_values import LIMIT, Entry, NoValue, Scope, sign, signed, size, value

NO_MODULE, TWICE, UNKNOWN, PORT, PARAM, RECURSIVE, RANGE, GEN_LOOP, TOO_MANY_BITS, CLOCK = range(1, 11)
NOT_CONSTANT, ZERO, WIDE, TOO_LARGE, KIND = range(11, 16)
TURNS, NODES, NAMES, BITS = 4096, 4_000_000, 200_000, 65_536
UNCOUNTED = {"range", "pair", "arm", "region", "module", "source"}
KEPT_COUNTS = 2_000


class Refused(Exception):
    pass


class Form:
    """The shape of a net, a reg or a memory; `words` are a memory's bounds."""

    def __init__(self, bounds, words, with_sign):
        self.ranged = bounds is not None
        self.left, self.right = bounds or (0, 0)
        self.width = abs(self.left - self.right) + 1
        self.words, self.signed = words, with_sign
        self.count = 0 if words is None else abs(words[0] - words[1]) + 1


class Var:
    """A name of the flat design."""

    def __init__(self, full, kind, free, form, is_input):
        self.full, self.kind, self.free, self.form, self.is_input = full, kind, free, form, is_input
        self.bits = form.width * max(form.count, 1)


class Driver:
    """An assign, a connection or a block. `scope` is that of the value, `goal_scope` that of the target."""

    def __init__(self, place, kind, scope, target=None, value=None, body=None, goal_scope=None, var=None, source=None):
        self.place, self.kind, self.scope, self.target, self.value, self.body = place, kind, scope, target, value, body
        self.goal_scope, self.var, self.source = goal_scope or scope, var, source


def declare(scope, word, place, found):
    if word in scope.seen:
        found.append((TWICE, place, word))
    scope.seen[word] = place


def flat_items(items):
    """The items, those of regions among them."""
    for item in items:
        if item.kind == "region":
            yield from flat_items(item.items)
        else:
            yield item


def labels_of(construct):
    """The written labels of a generate construct, directly nested ones included, with their places."""
    blocks = [construct.block] if construct.kind == "genfor" else [construct.yes, construct.no]
    for each in blocks:
        if each is None:
            continue
        if is_nested(construct, each):
            yield from labels_of(each.items[0])
        elif each.label:
            yield each.label, each.place


def is_nested(construct, each):
    return construct.kind == "genif" and not each.begin and each.items[0].kind == "genif"


class Reader:
    def __init__(self, source, top):
        self.source, self.top = source, top
        self.modules, self.vars, self.drivers = {}, [], []
        self.nodes = self.names = 0
        self.kept, self.is_partial = {}, False

    def run(self):
        """Walks the design; Refused where it is refused."""
        twice = []
        for module in self.source.modules:
            if module.word in self.modules:
                twice.append((TWICE, module.place, module.word))
            self.modules.setdefault(module.word, module)
        if self.top not in self.modules:
            raise Refused((NO_MODULE, None, self.top))
        self.judge(twice)
        self.walk_module(self.modules[self.top], self.scope_of(self.modules[self.top], ""), [self.top])
        return self

    def judge(self, found):
        if found:
            raise Refused(min(found, key=lambda each: (each[0], each[1] or (0, 0))))

    def count(self, nodes, found, words=()):
        """Counts nodes and names, but no parameters and genvars; what passes a limit is refused at its place."""
        passed = []
        room = NODES - self.nodes
        self.nodes += len(nodes)
        if len(nodes) > room >= 0:
            passed.append(nodes[room].place)
        for place, names in words:
            if self.names <= NAMES < self.names + names:
                passed.append(place)
            self.names += names
        if passed:
            found.append((TOO_LARGE, min(passed), None))

    def counted(self, node):
        if not hasattr(node, "nodes"):
            node.nodes = [each for each in node.walk() if each.kind not in UNCOUNTED]
        return node.nodes

    # Scopes and declarations.

    def scope_of(self, module, prefix):
        scope = Scope(None, prefix, self)
        lead = None
        for each in module.params:
            scope.names.setdefault(each.word, Entry("param", each.word, each, module, scope))
        for each in module.ports:
            lead = each if not each.short else lead
            each.lead = lead
            kind = "in" if lead.direction == "input" else "reg" if lead.net == "reg" else "net"
            entry = scope.names.setdefault(each.word, Entry(kind, each.word, each, module, scope))
            entry.clock = module.word == self.top and each.word == "clock" and kind == "in"
        self.fill(scope, module.items)
        scope.explicit |= {each.word for each in module.params + module.ports}
        return scope

    def fill(self, scope, items):
        """Enters the names that a list of items declares."""
        for item in flat_items(items):
            if item.kind == "decl":
                kind = "net" if item.word == "wire" else "reg"
                for each in item.names:
                    scope.names.setdefault(each.word, Entry(kind, each.word, each, item, scope))
            elif item.kind == "genvar":
                for word in item.words:
                    scope.names.setdefault(word, Entry("genvar", word, item, item, scope))
            elif item.kind == "param":
                for each in item.defs:
                    scope.names.setdefault(each.word, Entry("param", each.word, each, item, scope))
            scope.explicit |= set(self.declared(item))

    def declared(self, item):
        if item.kind in ("decl", "param"):
            return [each.word for each in (item.names if item.kind == "decl" else item.defs)]
        if item.kind == "genvar":
            return item.words
        if item.kind == "instance":
            return [item.word]
        return [word for word, _ in labels_of(item)] if item.kind in ("genfor", "genif") else []

    def range_of(self, node, scope, found):
        """The two bounds of a range, or None where it has none."""
        before = len(found)
        both = [judge_constant(each, scope, found) for each in (node.first, node.last)]
        if any(each is not None and not -(1 << 31) <= each < 1 << 31 for each in both):
            found.append((RANGE, node.place, None))
        return tuple(both) if None not in both and len(found) == before else None

    def form(self, entry):
        """The shape of a net, a reg or a memory; None where its declaration is refused or has no number for a bound."""
        if entry.form is None:
            found, entry.form = [], (None,)
            form = self.judge_form(entry, found)
            entry.form = (None if found else form,)
        return entry.form[0]

    def judge_form(self, entry, found):
        node, scope = entry.node, entry.scope
        lead = node.lead if node.kind == "port" else entry.holder
        integer = node.kind == "dname" and lead.word == "integer"
        both = (31, 0) if integer else None
        if lead.range is not None:
            both = self.range_of(lead.range, scope, found)
        words = None
        if node.kind == "dname" and node.words is not None:
            words = self.range_of(node.words, scope, found)
            if entry.kind == "net" or entry.free or node.value is not None:
                found.append((RANGE, node.place, None))
        if lead.range is not None and both is None or node.kind == "dname" and node.words is not None and words is None:
            return None
        form = Form(both, words, lead.signed or integer)
        if form.width > LIMIT:
            found.append((WIDE, node.place, form.width))
        return form

    # Parameters.

    def constant(self, entry):
        """Width, sign and number of a parameter, or None."""
        if entry.constant is None:
            found = []
            entry.constant = (None,)
            got = self.judge_param(entry, found)
            entry.constant = (None if found else got,)
        return entry.constant[0]

    def judge_param(self, entry, found):
        node, scope = entry.node, entry.scope.child()
        scope.before = node.at
        width = None
        if node.range is not None:
            both = self.range_of(node.range, scope, found)
            width = None if both is None else abs(both[0] - both[1]) + 1
            if width is not None and width > LIMIT:
                found.append((WIDE, node.place, width))
        expr, place = (node.value, scope) if entry.override is None else entry.override
        if entry.override is None:
            judge_expr(expr, place, found, True)
            assigned_divisors(expr, width, place, found)
        if found or node.range is not None and width is None:
            return None
        try:
            wide = max(size(expr, place), width or 0)
            with_sign = sign(expr, place)
            if wide > LIMIT:
                return None
            got = value(expr, wide, with_sign, place)
        except NoValue:
            return None
        if width is None:
            return wide, node.signed or with_sign, got
        return width, node.signed, got % (1 << width)

    def bounds_of_constant(self, entry, scope):
        """The bounds that selects of a parameter or genvar go by, or None."""
        if entry.kind == "genvar":
            return 31, 0
        if entry.node.range is not None:
            inner = entry.scope.child()
            inner.before = entry.node.at
            both = self.range_of(entry.node.range, inner, [])
            return both
        constant = self.constant(entry)
        return None if constant is None else (constant[0] - 1, 0)

    # The walk.

    def walk_module(self, module, scope, path):
        for each in module.params:
            found = []
            self.count(self.counted(each), found)
            self.walk_pdef(each, scope, found)
            self.judge(found)
        for each in module.ports:
            self.walk_port(each, scope)
        self.walk_items(module.items, scope, path)

    def walk_pdef(self, node, scope, found):
        declare(scope, node.word, node.place, found)
        entry = scope.names[node.word]
        if entry.node is node:
            self.judge_param(entry, found)

    def walk_port(self, node, scope):
        found = []
        declare(scope, node.word, node.place, found)
        self.count(self.counted(node), found, [(node.place, 1)])
        entry = scope.names[node.word]
        if entry.node is not node:
            self.judge(found)
        form = self.judge_form(entry, found)
        if node.value is not None:
            if entry.kind == "in":
                found.append((KIND, node.place, node.word))
                if entry.clock:
                    found.append((CLOCK, node.place, None))
            self.judge_value(entry, form, node.value, scope, found)
        self.judge(found)
        self.add_var(entry)

    def judge_value(self, entry, form, expr, scope, found):
        """The value of a declared name: constant for a reg, a driver for a net."""
        judge_expr(expr, scope, found, entry.kind == "reg")
        assigned_divisors(expr, None if form is None else form.width, scope, found)

    def add_var(self, entry):
        form = self.form(entry)
        if form is None:
            return  # A bound waits for a declaration that is refused where it stands, behind this one.
        is_input = entry.kind == "in" and bool(entry.scope.prefix)
        entry.var = Var(entry.scope.prefix + entry.word, entry.kind, entry.free, form, is_input)
        entry.var.entry = entry
        self.vars.append(entry.var)
        if entry.kind == "net" and entry.node.value is not None:
            place = entry.node.named[0] if entry.node.kind == "port" else entry.node.place
            self.drivers.append(Driver(place, "assign", entry.scope, value=entry.node.value, var=entry))

    def walk_items(self, items, scope, path):
        for item in items:
            getattr(self, "walk_" + item.kind)(item, scope, path)

    def walk_region(self, item, scope, path):
        self.walk_node(item)
        self.walk_items(item.items, scope, path)

    def walk_node(self, node):
        """A node that is refused for nothing but being one too many."""
        found = []
        self.count([node], found)
        self.judge(found)

    def walk_decl(self, item, scope, path):
        found, entries = [], []
        for node in item.names:
            declare(scope, node.word, node.place, found)
            entry = scope.names[node.word]
            if entry.node is not node:
                continue
            entries.append(entry)
            form = self.judge_form(entry, found)
            if node.value is not None:
                if entry.free and node.words is None:
                    found.append((KIND, node.place, node.word))
                self.judge_value(entry, form, node.value, scope, found)
        names = [(each.node.place, 1 + (self.form(each).count if self.form(each) else 0)) for each in entries]
        self.count(self.counted(item), found, names)
        self.judge(found)
        for entry in entries:
            self.add_var(entry)

    def walk_genvar(self, item, scope, path):
        found = []
        for word in item.words:
            declare(scope, word, item.place, found)
        self.count(self.counted(item), found)
        self.judge(found)

    def walk_param(self, item, scope, path):
        found = []
        for each in item.defs:
            self.walk_pdef(each, scope, found)
        self.count(self.counted(item), found)
        self.judge(found)

    def walk_assign(self, item, scope, path):
        found = []
        for each in item.pairs:
            judge_set(each.target, each.value, scope, found, "assign", False)
        self.count(self.counted(item), found)
        self.judge(found)
        for each in item.pairs:
            self.drivers.append(Driver(item.place, "assign", scope, each.target, each.value))

    def walk_always(self, item, scope, path):
        found = []
        if item.event == "posedge":
            entry = scope.find(item.word)
            if entry is None or entry.kind == "genvar" and not scope.within(entry):
                found.append((UNKNOWN, item.bracket[0], item.word))
            elif not entry.clock:
                found.append((CLOCK, item.bracket[0], None))
        judge_stmt(item.body, scope, found)
        self.count(self.counted(item), found)
        self.judge(found)
        kind = "clocked" if item.event == "posedge" else "comb"
        self.drivers.append(Driver(item.place, kind, scope, body=item.body))

    def walk_initial(self, item, scope, path):
        found = []
        judge_initial(item.body, scope, found)
        self.count(self.counted(item), found)
        self.judge(found)

    # Instances.

    def walk_instance(self, item, scope, path):
        found = []
        declare(scope, item.word, item.place, found)
        module = self.modules.get(item.module)
        if module is None:
            found.append((NO_MODULE, None, item.module))
        elif item.module in path:
            found.append((RECURSIVE, None, ",".join(path)))
        self.count([item], found)
        self.judge(found)
        inner = self.scope_of(module, scope.prefix + item.word + ".")
        self.give(item.overrides, module, inner, scope)
        seen = set()
        for each in item.overrides:
            self.walk_override(each, module, inner, scope, seen)
        seen = set()
        for each in item.conns:
            self.walk_conn(each, module, inner, scope, seen)
        self.walk_inner(module, inner, path)

    def given_param(self, node, module, inner):
        """The parameter that an override names, or None."""
        entry = inner.names.get(node.word)
        is_param = entry is not None and entry.kind == "param" and (
            entry.holder is module or entry.holder.word == "parameter")
        return entry if is_param else None

    def give(self, overrides, module, inner, scope):
        """Gives all parameters their values: the range of one may name another that is given later."""
        for each in overrides:
            entry = self.given_param(each, module, inner)
            if entry is not None and each.value is not None and entry.override is None:
                entry.override = each.value, scope

    def walk_override(self, node, module, inner, scope, seen):
        found = []
        if node.word in seen:
            found.append((TWICE, node.place, node.word))
        seen.add(node.word)
        entry = self.given_param(node, module, inner)
        if entry is None:
            found.append((PARAM, node.place, node.word))
        if node.value is not None:
            width = None
            if entry is not None and entry.node.range is not None:
                both = self.bounds_of_constant(entry, inner)
                width = None if both is None else abs(both[0] - both[1]) + 1
            judge_expr(node.value, scope, found, True)
            assigned_divisors(node.value, width, scope, found)
        self.count(self.counted(node), found)
        self.judge(found)

    def walk_conn(self, node, module, inner, scope, seen):
        found = []
        if node.word in seen:
            found.append((TWICE, node.place, node.word))
        seen.add(node.word)
        entry = inner.names.get(node.word)
        if entry is None or entry.node.kind != "port":
            entry = None
            found.append((PORT, node.place, node.word))
        if node.value is not None:
            self.judge_conn(node, entry, scope, found)
        self.count(self.counted(node), found)
        self.judge(found)
        if node.value is None:
            return
        if entry.kind == "in":
            self.drivers.append(Driver(node.place, "assign", scope, value=node.value, var=entry, goal_scope=inner))
        else:
            self.drivers.append(Driver(node.place, "assign", inner, target=node.value, goal_scope=scope, source=entry))

    def judge_conn(self, node, entry, scope, found):
        if entry is not None and entry.kind != "in":
            judge_output(node, entry.word, scope, found)
            return
        plain = scope.find(node.value.word) if node.value.kind == "name" and not node.value.selects else None
        if plain is not None and plain.clock and entry is not None:
            entry.clock = True
            return
        form = None if entry is None else self.form(entry)
        judge_expr(node.value, scope, found)
        assigned_divisors(node.value, None if form is None else form.width, scope, found)

    def walk_inner(self, module, inner, path):
        """Walks an instance's module; one that was walked before with the same parameters is counted alone."""
        key = (module.word, tuple(self.constant(each) for each in inner.names.values() if each.override is not None),
               tuple(word for word, each in inner.names.items() if each.override is not None),
               tuple(word for word, each in inner.names.items() if each.clock))
        nodes, names, within = self.kept.get(key, (0, 0, frozenset()))
        fits = self.nodes + nodes <= NODES and self.names + names <= NAMES
        if nodes > KEPT_COUNTS and fits and not within & set(path):
            self.nodes, self.names, self.is_partial = self.nodes + nodes, self.names + names, True
            return
        before = self.nodes, self.names
        self.walk_module(module, inner, path + [module.word])
        below = {module.word} | {each.module for each in module.walk() if each.kind == "instance"}
        for each in list(below):
            below |= self.within(each, set())
        self.kept[key] = self.nodes - before[0], self.names - before[1], frozenset(below)

    def within(self, word, seen):
        """The modules that may stand below one."""
        if word in seen or word not in self.modules:
            return seen
        seen.add(word)
        for each in self.modules[word].walk():
            if each.kind == "instance":
                self.within(each.module, seen)
        return seen

    # Generate constructs.

    def construct_name(self, scope):
        scope.constructs += 1
        zeros = ""
        while f"genblk{zeros}{scope.constructs}" in scope.explicit:
            zeros += "0"
        return f"genblk{zeros}{scope.constructs}"

    def declare_labels(self, item, scope, found):
        own = set()
        for word, place in labels_of(item):
            if word not in own:
                declare(scope, word, place, found)
            own.add(word)

    def walk_genif(self, item, scope, path, outer=None):
        found = []
        default = outer or self.construct_name(scope)
        if outer is None:
            self.declare_labels(item, scope, found)
        test = judge_constant(item.test, scope, found)
        self.count([item] + self.counted(item.test), found)
        self.judge(found)
        chosen = None if test is None else item.yes if test != 0 else item.no
        if chosen is None:
            return
        if is_nested(item, chosen):
            self.walk_node(chosen)
            self.walk_genif(chosen.items[0], scope, path, default)
        else:
            self.walk_block(chosen, scope, path, chosen.label or default)

    def walk_block(self, node, scope, path, word, entry=None, turn=None):
        self.walk_node(node)
        inner = Scope(scope, f"{scope.prefix}{word}.")
        if entry is not None:
            inner.bound[entry] = turn
        self.fill(inner, node.items)
        self.walk_items(node.items, inner, path)

    def walk_genfor(self, item, scope, path):
        found = []
        default = self.construct_name(scope)
        self.declare_labels(item, scope, found)
        entry = scope.find(item.word)
        if entry is None:
            found.append((UNKNOWN, item.place, item.word))
        if entry is None or entry.kind != "genvar" or scope.within(entry):
            self.judge_bad_head(item, entry, scope, found)
            self.judge(found)
        turns, nodes = self.head(item, entry, scope, found)
        self.count(nodes, found)
        self.judge(found)
        for turn in turns:
            self.walk_block(item.block, scope, path, f"{item.block.label or default}[{turn}]", entry, turn)

    def judge_bad_head(self, item, entry, scope, found):
        """A loop whose name is no genvar, or one of a loop around it, is judged for names and kinds alone."""
        if entry is not None:
            found.append((KIND, item.place, item.word))
        other = []
        for each in (item.start, item.test, item.step):
            judge_expr(each, scope, other)
        found.extend(each for each in other if each[0] == UNKNOWN)

    def head(self, item, entry, scope, found):
        """The numbers of a loop's turns and the nodes of its head."""
        outside = self.at_turn(scope, entry, None, False)
        turn = self.assigned(item.start, outside, found)
        nodes, turns = [item] + self.counted(item.start), []
        while True:
            inner = self.at_turn(scope, entry, turn, True)
            test = judge_constant(item.test, inner, found)
            nodes += self.counted(item.test)
            if test is None or test == 0 or turn is None:
                if not turns:
                    self.assigned(item.step, inner, found)
                    nodes += self.counted(item.step)
                return turns, nodes
            if len(turns) == TURNS:
                found.append((GEN_LOOP, item.place, None))
                return turns, nodes
            turns.append(turn)
            turn = self.assigned(item.step, inner, found)
            nodes += self.counted(item.step)
            if turn is None:
                return turns, nodes

    def at_turn(self, scope, entry, turn, within):
        inner = scope.child()
        if within:
            inner.bound[entry] = turn
        return inner

    def assigned(self, expr, scope, found):
        """The number that a genvar gets from an expression, or None."""
        before = len(found)
        judge_expr(expr, scope, found, True)
        assigned_divisors(expr, 32, scope, found)
        if len(found) > before:
            return None
        try:
            wide = max(size(expr, scope), 32)
            if wide > LIMIT:
                return None
            return signed(value(expr, wide, sign(expr, scope), scope) % (1 << 32), 32)
        except NoValue:
            return None

