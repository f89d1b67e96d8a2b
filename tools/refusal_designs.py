"""Random designs over the silent wrapper for compare-refusals.py. Most are accepted before faults are planted in them.

A `Place` is a list of items with what may be read in it. Items read only what stands before them, so that no drivers
stand in a loop; neighbours change places at times, as names may be used before their declaration.
"""
from refusal_flow import FIELDS
from refusal_trees import (Node, always, assign, binary, block, bounds, clocked, clone, concat, cond, conn, decl, dname,
                           gblock, genfor, genif, index, instance, name, num, part, pdef, plus, port, put, repl, target,
                           unary)

WORDS = ["+", "-", "*", "&", "|", "^", "~^", "<<", ">>", "<<<", ">>>", "==", "!=", "<", "<=", ">", ">=", "&&", "||"]
UNARY = ["+", "-", "!", "~", "&", "~&", "|", "~|", "^", "~^"]


class Signal:
    """What may be read: its word, its bounds or None, its words or None, and its kind."""

    def __init__(self, word, kind, bounds=None, words=None):
        self.word, self.kind, self.bounds, self.words = word, kind, bounds, words

    @property
    def width(self):
        return 1 if self.bounds is None else abs(self.bounds[0] - self.bounds[1]) + 1


class Place:
    def __init__(self, design, up=None, clock=None):
        self.design, self.up, self.items = design, up, []
        self.signals, self.constants, self.locals = [], [], []
        self.clock = clock if up is None else up.clock
        self.module = None if up is None else up.module

    def all_signals(self):
        return self.signals + (self.up.all_signals() if self.up else [])

    def all_constants(self):
        return self.constants + (self.up.all_constants() if self.up else [])


class Design:
    def __init__(self, rng):
        self.rng, self.count, self.places, self.modules, self.ports = rng, 0, [], [], {}
        self.instances, self.depth = [], 0

    def fresh(self, letter):
        self.count += 1
        return f"{letter}{self.count}"

    def chance(self, part_of_one):
        return self.rng.random() < part_of_one

    # Expressions.

    def number(self, most=15):
        got, rng = self.rng.randint(0, most), self.rng
        form = rng.random()
        if form < 0.5:
            return num(got)
        if form < 0.85:
            return num(got, rng.randint(max(got.bit_length(), 1), 12), rng.random() < 0.2, rng.choice("dbho"))
        return num(got, None, rng.random() < 0.5, rng.choice("dbh"))

    def constant(self, place, depth=2):
        rng, words = self.rng, place.all_constants()
        if depth == 0 or self.chance(0.4):
            return name(rng.choice(words)) if words and self.chance(0.6) else self.number(7)
        form = rng.random()
        if form < 0.6:
            return binary(rng.choice(WORDS), self.constant(place, depth - 1), self.constant(place, depth - 1))
        if form < 0.7:
            return binary(rng.choice("/%"), self.constant(place, depth - 1), num(rng.randint(1, 5)))
        if form < 0.8:
            return unary(rng.choice(UNARY), self.constant(place, depth - 1))
        if form < 0.9:
            return cond(*(self.constant(place, depth - 1) for _ in range(3)))
        if words and self.chance(0.5):
            return name(rng.choice(words), index(self.number(3)))
        return Node("sys", op=rng.choice(["$signed", "$unsigned"]), inner=self.constant(place, depth - 1))

    def at(self, place, signal_bounds, depth):
        """An index, most of them within the bounds."""
        low, high = sorted(signal_bounds)
        if self.chance(0.3) and depth:
            return self.expr(place, depth - 1)
        if self.chance(0.1):
            return self.constant(place, 1)
        got = self.rng.randint(low, high + self.rng.choice([0, 0, 0, 2]))
        return num(got) if got >= 0 else unary("-", num(-got))

    def selects(self, place, signal, depth, whole=0.5, constant=False):
        """Selects that fit a signal."""
        rng, found = self.rng, []
        depth = 0 if constant else depth
        if signal.words is not None:
            found.append(index(self.at(place, signal.words, depth)))
            if self.chance(0.6):
                return found
        if self.chance(whole) or signal.bounds is None and signal.words is None:
            return found
        shape = signal.bounds or (0, 0)
        low, high = sorted(shape)
        form = rng.random()
        if form < 0.4:
            found.append(index(self.at(place, shape, depth)))
        elif form < 0.75:
            first, last = sorted([rng.randint(low, high), rng.randint(low, high + (0 if self.chance(0.9) else 3))])
            found.append(part(*(self.signed(each) for each in
                                ((last, first) if shape[0] >= shape[1] else (first, last)))))
        else:
            found.append(plus(self.at(place, shape, depth), num(rng.randint(1, high - low + 1))))
        return found

    def signed(self, got):
        return num(got) if got >= 0 else unary("-", num(-got))

    def expr(self, place, depth=2):
        rng, signals = self.rng, place.all_signals()
        if depth <= 0 or self.chance(0.3):
            if signals and self.chance(0.8):
                signal = rng.choice(signals)
                return name(signal.word, *self.selects(place, signal, depth))
            return self.constant(place, 0)
        form = rng.random()
        if form < 0.5:
            return binary(rng.choice(WORDS), self.expr(place, depth - 1), self.expr(place, depth - 1))
        if form < 0.62:
            return unary(rng.choice(UNARY), self.expr(place, depth - 1))
        if form < 0.72:
            return cond(*(self.expr(place, depth - 1) for _ in range(3)))
        if form < 0.82:
            return concat(*(self.small(place) for _ in range(rng.randint(1, 3))))
        if form < 0.88:
            return repl(num(rng.randint(1, 3)), *(self.small(place) for _ in range(rng.randint(1, 2))))
        if form < 0.94:
            return Node("sys", op=rng.choice(["$signed", "$unsigned"]), inner=self.expr(place, depth - 1))
        return self.constant(place, 2)

    def small(self, place):
        """An operand of a concatenation, of few bits."""
        signals = [each for each in place.all_signals() if each.width <= 16]
        if signals and self.chance(0.8):
            signal = self.rng.choice(signals)
            return name(signal.word, *self.selects(place, signal, 1))
        return num(self.rng.randint(0, 7), self.rng.randint(3, 5))

    # Shapes.

    def bounds(self):
        """Bounds of a vector, or None for a scalar."""
        rng = self.rng
        if self.chance(0.2):
            return None
        low, wide = rng.choice([0, 0, 0, 0, 1, 4, -3]), rng.choice([0, 1, 2, 3, 5, 7, 15])
        return (low, low + wide) if self.chance(0.2) else (low + wide, low)

    def range(self, shape, place=None):
        if shape is None:
            return None
        first, last = (self.signed(each) for each in shape)
        if place is not None and place.all_constants() and self.chance(0.15):
            last = binary("-", last, binary("*", name(self.rng.choice(place.all_constants())), num(0)))
        return bounds(first, last)

    def add(self, place, item):
        """Puts an item behind the others, at times before the last one."""
        movable = ("decl", "assign", "always", "instance")
        spot = len(place.items)
        if self.chance(0.15) and place.items and item.kind in movable and place.items[-1].kind in movable:
            spot -= 1
        place.items.insert(spot, item)

    # Items.

    def wire(self, place):
        shape, rng = self.bounds(), self.rng
        word, value = self.fresh("w"), self.expr(place, 3)
        form = rng.random()
        if form < 0.4:
            self.add(place, decl("wire", [dname(word, value)], self.range(shape, place), self.chance(0.2)))
        else:
            self.add(place, decl("wire", [word], self.range(shape, place), self.chance(0.2)))
            self.drive(place, Signal(word, "net", shape), value)
        place.signals.append(Signal(word, "net", shape))

    def drive(self, place, signal, value):
        """Assigns all bits of a net, at times in two parts or in one concatenation with another net."""
        shape, word = signal.bounds, signal.word
        if signal.width > 1 and self.chance(0.3):
            cut = self.rng.randint(*sorted(shape))
            if shape[0] > shape[1] and cut > shape[1]:
                cuts = [part(num(shape[0]), self.signed(cut)), part(self.signed(cut - 1), self.signed(shape[1]))]
                pairs = [Node("pair", target=target(word, each), value=clone(value)) for each in cuts]
                self.add(place, Node("assign", pairs=pairs))
                return
        if self.chance(0.2):
            other = self.fresh("w")
            self.add(place, decl("wire", [other]))
            both = [target(word), target(other)]
            self.add(place, assign(Node("targets", parts=both), value))
            place.signals.append(Signal(other, "net"))
            return
        self.add(place, assign(target(word), value))

    def reg(self, place):
        shape = self.bounds()
        word = self.fresh("r")
        signal = Signal(word, "reg", shape)
        value = self.constant(place, 1) if self.chance(0.3) and place.clock else None
        head = "integer" if shape is None and self.chance(0.3) else "reg"
        self.add(place, decl(head, [dname(word, value)], None if head == "integer" else self.range(shape, place),
                             head == "reg" and self.chance(0.2)))
        if head == "integer":
            signal.bounds = (31, 0)
        if place.clock and self.chance(0.6):
            place.signals.append(signal)
            self.add(place, clocked(place.clock, self.stmts(place, [signal], "<=", 2)))
        else:
            self.comb(place, signal)
        if signal not in place.signals:
            place.signals.append(signal)

    def comb(self, place, signal):
        body = [put(target(signal.word), self.expr(place, 2))]
        place.signals.append(signal)
        body.append(self.stmts(place, [signal], "=", 2))
        event = self.rng.choice(["*", "(* )", "( * )", "( *)"])
        if self.chance(0.2) and body[1].kind == "set":
            body = body[:1]
        self.add(place, always(block(*body), event))

    def memory(self, place):
        shape, rng = self.bounds(), self.rng
        word, low = self.fresh("m"), rng.choice([0, 0, 1])
        words = (low, low + rng.choice([1, 3, 7]))
        words = words[::-1] if self.chance(0.3) else words
        signal = Signal(word, "mem", shape, words)
        self.add(place, decl("reg", [dname(word, None, self.range(words))], self.range(shape, place), self.chance(0.1)))
        place.signals.append(signal)
        if place.clock:
            self.add(place, clocked(place.clock, self.stmts(place, [signal], "<=", 2)))
        if self.chance(0.3):
            self.add(place, Node("initial", body=put(target(word, index(num(low))), self.constant(place, 1))))

    def stmts(self, place, signals, op, depth):
        """A statement that assigns the signals."""
        rng = self.rng
        form = rng.random()
        if depth == 0 or form < 0.35:
            signal = rng.choice(signals)
            goal = target(signal.word, *self.selects(place, signal, 1))
            if self.chance(0.1) and op == "<=":
                goal = Node("targets", parts=[goal, target(signal.word, *self.selects(place, signal, 1))])
            return put(goal, self.expr(place, 2), op)
        if form < 0.55:
            yes = block(self.stmts(place, signals, op, depth - 1))
            no = self.stmts(place, signals, op, depth - 1) if self.chance(0.5) else None
            return Node("if", test=self.expr(place, 2), yes=yes, no=no)
        if form < 0.75:
            return self.case(place, signals, op, depth)
        if form < 0.82:
            return Node("assume", value=self.expr(place, 1)) if self.chance(0.3) else Node("empty")
        return block(*(self.stmts(place, signals, op, depth - 1) for _ in range(rng.randint(1, 2))))

    def case(self, place, signals, op, depth):
        rng, arms = self.rng, []
        word = rng.choice(["case", "casez"])
        for _ in range(rng.randint(1, 3)):
            labels = [self.label(place, word) for _ in range(rng.randint(1, 2))]
            arms.append(Node("arm", labels=labels, body=self.stmts(place, signals, op, depth - 1)))
        if self.chance(0.5):
            arms.append(Node("arm", labels=None, body=self.stmts(place, signals, op, depth - 1)))
        return Node("case", word=word, value=self.expr(place, 2), arms=arms)

    def label(self, place, word):
        if word == "casez" and self.chance(0.4):
            text = "".join(self.rng.choice("01?z") for _ in range(3)) + "?"
            return Node("wild", text=f"4'b{text}", width=4, signed=False)
        return self.number() if self.chance(0.7) else self.expr(place, 1)

    def free(self, place):
        shape, word = self.bounds(), self.fresh("f")
        attrs = [self.rng.choice(["anyseq", "anyconst", "anyseq = 1", "anyseq = nosuch"])]
        head = self.rng.choice(["reg", "reg", "wire", "integer"])
        self.add(place, decl(head, [word], None if head == "integer" else self.range(shape), False, attrs))
        place.signals.append(Signal(word, "free-" + head, (31, 0) if head == "integer" else shape))

    def localparam(self, place):
        word, signed = self.fresh("L"), self.chance(0.2)
        width = self.rng.randint(3, 9)
        shape = bounds(num(width), num(0)) if self.chance(0.3) else None
        head = self.rng.choice(["localparam", "localparam", "parameter"])
        self.add(place, Node("param", word=head, defs=[pdef(word, self.constant(place, 2), shape, signed)]))
        place.constants.append(word)
        place.locals.append((word, head))

    def initial(self, place):
        signals = [each for each in place.signals if each.kind in ("reg", "mem")]
        if not signals:
            return
        body = [put(target(each.word, *self.selects(place, each, 0, 0.5, True)), self.constant(place, 1))
                for each in self.rng.sample(signals, min(2, len(signals)))]
        self.add(place, Node("initial", body=block(*body)))

    def loop(self, place):
        """A generate loop of one to four turns."""
        word = self.fresh("g")
        place.items.append(Node("genvar", words=[word]))
        inner = Place(self, place)
        inner.constants.append(word)
        self.fill(inner, self.rng.randint(1, 2))
        body = gblock(label=self.fresh("b") if self.chance(0.6) else None)
        body.items = inner.items
        turns = self.rng.randint(1, 4)
        item = genfor(word, num(0), binary("<", name(word), num(turns)), binary("+", name(word), num(1)), body)
        self.place_construct(place, item)

    def choice(self, place):
        """A generate if, at times with one directly nested."""
        blocks = []
        for _ in range(2):
            inner = Place(self, place)
            self.fill(inner, self.rng.randint(0, 2))
            body = gblock(label=self.fresh("b") if self.chance(0.5) else None)
            body.items = inner.items
            blocks.append(body)
        test = self.constant(place, 2)
        item = genif(test, blocks[0], blocks[1] if self.chance(0.6) else None)
        if item.no is not None and self.chance(0.4):
            item.no = gblock(genif(self.constant(place, 1), blocks[1]), begin=False)
        self.place_construct(place, item)

    def place_construct(self, place, item):
        place.items.append(Node("region", items=[item]) if self.chance(0.25) else item)

    def instance(self, place):
        if not self.modules:
            return
        module = self.rng.choice(self.modules)
        conns, later = [], []
        for each in module.ports:
            word, shape = each.word, self.ports[module.word][each.word]
            if each.direction == "input":
                value = self.clock_or_expr(place, word)
                if value is not None:
                    conns.append(conn(word, value))
                continue
            if self.chance(0.85):
                net = self.fresh("o")
                place.items.append(decl("wire", [net], self.range(shape)))
                whole = name(net) if self.chance(0.8) else concat(name(net))
                conns.append(conn(word, whole))
                later.append(Signal(net, "net", shape))
            elif self.chance(0.5):
                conns.append(conn(word, None))
        self.rng.shuffle(conns)
        overrides = [conn(each.word, self.rng.choice([None, self.constant(place, 1), num(self.rng.randint(1, 6))]))
                     for each in module.params if self.chance(0.5)]
        item = instance(module.word, self.fresh("u"), conns, overrides)
        place.items.append(item)
        self.instances.append((place, item, module))
        place.signals += later

    def clock_or_expr(self, place, word):
        if word == "clk":
            return name(place.clock) if place.clock else num(0)
        return self.expr(place, 2)

    def fill(self, place, count):
        """Puts random items into a place."""
        self.places.append(place)
        self.depth += 1
        makers = [self.wire] * 5 + [self.reg] * 4 + [self.memory] * 2 + [self.free, self.localparam, self.initial]
        makers += [self.instance] * 2 + ([self.loop, self.choice] * 2 if self.depth < 4 else [])
        for _ in range(count):
            self.rng.choice(makers)(place)
        self.depth -= 1

    # Modules.

    def module(self):
        word, place = self.fresh("mod"), Place(self)
        place.module = word
        params, ports, shapes = [], [], {}
        for _ in range(self.rng.choice([0, 0, 1, 2])):
            each = self.fresh("P")
            shape = bounds(num(self.rng.randint(3, 7)), num(0)) if self.chance(0.3) else None
            params.append(pdef(each, self.constant(place, 1), shape, self.chance(0.2)))
            place.constants.append(each)
        if self.chance(0.8):
            ports.append(port("clk", "input"))
            shapes["clk"] = None
            place.clock = "clk"
        for _ in range(self.rng.randint(0, 2)):
            shape, each = self.bounds(), self.fresh("i")
            ports.append(port(each, "input", self.range(shape), signed=self.chance(0.1)))
            place.signals.append(Signal(each, "in", shape))
            shapes[each] = shape
        self.fill(place, self.rng.randint(1, 4))
        for _ in range(self.rng.randint(1, 2)):
            shape, each = self.bounds(), self.fresh("q")
            ports.append(port(each, "output", self.range(shape), attrs=self.rng.choice([[], [], ["keep"]])))
            shapes[each] = shape
            if self.chance(0.15):
                ports[-1].value = self.expr(place, 1)
                continue
            if place.clock and self.chance(0.2):
                ports[-1].net = "reg"
                place.items.append(clocked("clk", put(target(each), self.expr(place, 2), "<=")))
                continue
            self.add(place, assign(target(each), self.expr(place, 2)))
        self.modules.append(Node("module", word=word, params=params, ports=ports, items=place.items))
        self.ports[word] = shapes

    def wrapper(self, extra=()):
        place = Place(self, clock="clock")
        place.module = "rvfi_wrapper"
        place.signals.append(Signal("reset", "in"))
        ports = [port("clock", "input"), port("reset", "input")]
        if self.chance(0.3):
            ports.append(port("data", "input", bounds(num(7), num(0))))
            place.signals.append(Signal("data", "in", (7, 0)))
        fields = FIELDS + list(extra)
        ports += [port(each, "output", bounds(num(wide - 1), num(0)) if wide > 1 else None) for each, wide in fields]
        self.fill(place, self.rng.randint(2, 7))
        shown = {each for each, _ in fields if each != "rvfi_valid" and self.chance(0.05)}
        place.items.append(Node("assign", pairs=[
            Node("pair", target=target(each), value=self.expr(place, 2) if each in shown else num(0))
            for each, _ in fields]))
        self.top = Node("module", word="rvfi_wrapper", params=[], ports=ports, items=place.items)
        return place


def make(rng, extra=()):
    """A design with its source."""
    design = Design(rng)
    for _ in range(rng.choice([0, 1, 1, 2, 3])):
        design.module()
    design.wrapper(extra)
    modules = design.modules + [design.top]
    if rng.random() < 0.5:
        modules.reverse()
    design.source = Node("source", modules=modules)
    return design
