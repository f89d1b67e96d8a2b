"""Faults for compare-refusals.py, by what they are likely refused as: elab 1 to 15, flow 1 to 6, port 1 to 3, heavy.

A fault is a function of a design and one of its places; it changes items there or puts more in. What the text is
refused as is the reading's to say.
"""
from refusal_plants import (ZERO_COUNT, given_without_value, later_around, loop, many_blocks, put_in, signal, use, wide,
                            zero)
from refusal_trees import (Node, always, assign, binary, block, bounds, clocked, clone, concat, decl, dname, gblock,
                           genfor, genif, index, instance, name, num, part, pdef, plus, put, repl, target, unary, conn)


def no_module(design, place):
    if design.chance(0.3) and design.instances:
        design.rng.choice(design.instances)[1].module = design.fresh("absent")
    elif design.chance(0.2):
        design.top.word = "rvfi_wrap"
    else:
        put_in(design, place, instance(design.fresh("absent"), design.fresh("u"), [conn("a", num(1))]))


def twice(design, place):
    rng = design.rng
    form, word = rng.randrange(9), design.fresh("t")
    if form == 0 and design.modules:
        design.source.modules.append(clone(rng.choice(design.source.modules)))
    elif form == 1 and design.instances:
        conns = rng.choice(design.instances)[1].conns
        conns.append(clone(rng.choice(conns)) if conns else conn("x", None))
    elif form == 2 and design.instances:
        overrides = rng.choice(design.instances)[1].overrides
        overrides += [clone(overrides[0])] if overrides else [conn("P1", num(1)), conn("P1", num(2))]
    elif form == 3:
        put_in(design, place, decl("wire", [dname(word, num(0))]), genif(num(rng.randint(0, 1)), gblock(label=word)))
    elif form == 4:
        nested = gblock(genif(num(rng.randint(0, 1)), gblock(label=word), gblock(label=design.fresh("b"))), begin=False)
        put_in(design, place, genif(num(1), gblock(label=word), nested), decl("reg", [word]))
    elif form == 5:
        loop(design, place, test=num(0)).block.label = word
        put_in(design, place, Node("genvar", words=[design.fresh("g"), word]))
    elif form == 6 and design.top.ports:
        put_in(design, place, decl("wire", [dname(rng.choice(["reset", "clock", "rvfi_valid"]), num(0))]))
    elif form == 7:
        put_in(design, place, Node("param", word="localparam", defs=[pdef(word, num(1)), pdef(
            word, num(2), bounds(num(3), num(0)), design.chance(0.5))]))
    else:
        put_in(design, place, decl("reg", [word]), decl(rng.choice(["reg", "wire"]), [design.fresh("t"), word]))


def unknown(design, place):
    rng, form, word = design.rng, design.rng.randrange(12), design.fresh("nosuch")
    genvars = [node.words[0] for module in design.source.modules for node in module.walk() if node.kind == "genvar"]
    if form == 0:
        loop(design, place, step=lambda own: name(word), test=lambda own: binary("<", own, num(rng.randint(0, 2))))
    elif form == 1:
        loop(design, place, start=lambda own: binary("+", own, num(1)))
    elif form == 2:
        loop(design, place, declared=False)
    elif form in (3, 4):
        own = design.fresh("g")
        put_in(design, place, Node("genvar", words=[own]), clocked(own, Node("empty")))
        if form == 4:
            loop(design, place, items=[clocked(own, block())])
    elif form == 5 and genvars:
        use(design, place, name(rng.choice(genvars)))
    elif form == 6:
        put_in(design, place, assign(target(word, index(num(1))), num(0)))
    elif form == 7:
        put_in(design, place, clocked(word, block()))
    elif form == 8:
        bad = Node("param", word="localparam", defs=[pdef(word, name("nosuch"))])
        wide_wire = decl("wire", [design.fresh("w")], bounds(num(200), num(0)))
        put_in(design, place, genif(name(word), gblock(), gblock(wide_wire)), bad)
    elif form == 9 and design.instances:
        use(design, place, name(rng.choice(design.instances)[1].word))
    elif form == 10:
        bad = Node("param", word="localparam", defs=[pdef(word, name("nosuch"))])
        late = rng.choice([repl(name(word), num(1, 1)), repl(concat(name(word)), num(1, 2)), name(word)])
        use(design, place, late)
        place.items.append(bad)
    else:
        use(design, place, name(word))


def port_fault(design, place):
    rng = design.rng
    outputs = [(inst, each, where) for where, inst, module in design.instances for each in inst.conns
               for own in module.ports if own.word == each.word and own.direction == "output"]
    form = rng.randrange(9)
    if not outputs or form == 0:
        if design.instances:
            where, inst, _ = rng.choice(design.instances)
            inst.conns.insert(rng.randint(0, len(inst.conns)), conn(design.fresh("p"), design.expr(where, 1)))
        return
    inst, each, where = rng.choice(outputs)
    if form in (1, 2):
        each.value = name(signal(design, where, "free-reg", "free-integer"))
    elif form == 3:
        each.value = name(signal(design, where, "reg", "mem"))
    elif form == 4:
        each.value = Node("paren", inner=name(signal(design, where, "net")))
    elif form == 5:
        each.value = concat(name(signal(design, where, "net")), name(signal(design, where, "reg")))
    elif form == 6:
        each.value = name(signal(design, where, "net"), index(design.expr(where, 1)))
    elif form == 7:
        each.value = concat(name(signal(design, where, "in", "net")), name(signal(design, where, "free-wire", "net")))
    else:
        each.value = design.expr(where, 2)


def param_fault(design, place):
    rng = design.rng
    if not design.instances:
        return no_module(design, place)
    _, inst, module = rng.choice(design.instances)
    locals_ = [each.defs[0].word for each in module.items if each.kind == "param"]
    inner = [node.defs[0].word for node in module.walk() if node.kind == "param"]
    words = rng.choice([locals_, inner, [], [each.word for each in module.ports]]) or [design.fresh("N")]
    inst.overrides.insert(rng.randint(0, len(inst.overrides)),
                          conn(rng.choice(words), rng.choice([None, num(2), design.constant(place, 1)])))


def recursive(design, place):
    above = [each for each in design.places if each.module and each.module != "rvfi_wrapper"] or [place]
    inside = design.rng.choice(above)
    modules = [inside.module, design.rng.choice(design.source.modules).word, "rvfi_wrapper"]
    item = instance(design.rng.choice(modules), design.fresh("u"), [])
    if design.chance(0.2):
        item = genif(num(design.rng.randint(0, 1)), gblock(item))
    put_in(design, inside, item)


def range_fault(design, place):
    rng, word = design.rng, design.fresh("v")
    vector, mem = signal(design, place, "net", "in"), signal(design, place, "mem")
    form = rng.randrange(16)
    made = decl("reg", [dname(word)], bounds(num(7), num(0)))
    exprs = [
        name(vector, index(num(0)), index(num(0))), name(vector, part(num(0), num(2))), name(mem),
        name(mem, part(num(1), num(0))), name(vector, plus(num(0), num(rng.choice([0, 0, 1])))), ZERO_COUNT,
        repl(unary("-", num(1)), num(1, 1)), name(vector, part(num(4294967295, 33), num(0))),
        name(mem, index(num(1)), index(num(0)), index(num(0))), name("reset", index(num(0)))]
    if form < 10:
        return use(design, place, clone(exprs[form]))
    if form == 10:
        put_in(design, place, decl(*rng.choice([("wire", [dname(word, None, bounds(num(0), num(3)))]),
                                                ("reg", [dname(word, num(1), bounds(num(0), num(3)))])])))
    elif form == 11:
        put_in(design, place, decl("reg", [dname(word, None, bounds(num(0), num(3)))], None, False, ["anyseq"]))
    elif form == 12:
        shape = rng.choice([bounds(num(0), num(3)), bounds(num(4), num(1)), bounds(num(3), num(0))])
        put_in(design, place, Node("param", word="localparam", defs=[pdef(word, num(5), shape)]))
        use(design, place, name(word, rng.choice([index(num(1)), part(num(1), num(0)), plus(num(0), num(1))])))
    elif form == 13:
        put_in(design, place, decl("wire", [word], bounds(num(rng.choice([3, 4294967295]), 33), num(0))))
    elif form == 14:
        goal = target(word, rng.choice([part(num(2), num(5)), part(num(9), num(2147483648, 33)), plus(num(1), num(0))]))
        put_in(design, place, made, always(put(goal, num(1)), "*"))
    else:
        goal = target(word, index(num(1)), index(num(0)))
        put_in(design, place, made, always(put(goal, num(1)), "*"))


def gen_loop(design, place):
    """Loops without an end, and steps and tests that vary or are refused."""
    rng, other = design.rng, name(signal(design, place, "net", "reg"))
    step = rng.choice([
        lambda own: own, lambda own: binary("-", own, num(1)), lambda own: binary("+", own, num(0)),
        lambda own: binary("+", own, other), lambda own: binary("+", own, binary("/", num(4), num(0))),
        lambda own: wide(), lambda own: ZERO_COUNT, lambda own: binary("/", num(4), own),
        lambda own: binary("+", own, name("nosuch")), lambda own: binary("^", own, num(1))])
    test = rng.choice([None, None, lambda own: binary("<", own, num(5)), lambda own: num(1), lambda own: other,
                       lambda own: binary("<=", own, binary("/", num(4), num(0))), lambda own: num(0),
                       lambda own: binary("<", binary("%", num(7), binary("-", num(2), own)), num(9))])
    start = rng.choice([None, None, None, unary("-", num(2)), zero(design), name("nosuch")])
    loop(design, place, start, test, step, [decl("reg", [design.fresh("r")])])


def exact_loop(design, place):
    turns = design.rng.choice([4096, 4097])
    loop(design, place, test=lambda own: binary("<", own, num(turns)))


def many_bits(design, place):
    rng, word = design.rng, design.fresh("h")
    shape, words = bounds(num(127), num(0)), bounds(num(0), num(511))
    made = decl("reg", [dname(word, None, words)], shape)
    put_in(design, place, made)
    if design.chance(0.4):
        goal = rng.choice([target(word, index(num(3))), target(word, index(num(600))),
                           target(word, index(num(2)), part(num(9), num(4)))])
        more = decl("reg", [design.fresh("h")], bounds(num(100), num(0)))
        put_in(design, place, always(put(goal, num(1)), "*"), more)
    else:
        put_in(design, place, decl("reg", [design.fresh("h")], bounds(num(rng.randint(0, 3)), num(0))))


def clock_fault(design, place):
    rng, clock = design.rng, place.clock or "clock"
    form = rng.randrange(9)
    if form == 0:
        put_in(design, place, clocked(signal(design, place), block()))
    elif form == 1:
        put_in(design, place, clocked("reset", block()))
    elif form == 2:
        use(design, place, name(clock))
    elif form == 3:
        put_in(design, place, assign(target(clock), num(1)))
    elif form == 4:
        for _, inst, _ in design.instances:
            for each in inst.conns:
                if each.word == "clk":
                    each.value = rng.choice([Node("paren", inner=name("clock")), concat(name("clock")), num(1), None])
                    return
        use(design, place, name(clock))
    elif form == 5:
        loop(design, place, items=[clocked("reset", block())])
    elif form == 6:
        for _, inst, module in design.instances:
            for each in inst.conns:
                if any(own.word == each.word and own.direction == "output" for own in module.ports):
                    each.value = rng.choice([name("clock"), concat(name("clock"), num(1)), concat(name("clock"))])
                    return
    elif form == 7 and design.instances:
        where, inst, module = rng.choice(design.instances)
        inputs = [own.word for own in module.ports if own.direction == "input" and own.word != "clk"]
        for each in inst.conns:
            if each.word in inputs:
                each.value = name(where.clock or "clock")
    else:
        word = design.fresh("g")
        loop(design, place, word=word, items=[clocked(word, block())])


def not_constant(design, place):
    rng, word, other = design.rng, design.fresh("k"), name(signal(design, place))
    form = rng.randrange(12)
    if form == 0:
        use(design, place, binary(rng.choice("/%"), *rng.choice([(other, num(2)), (num(2), other), (other, num(0))])))
    elif form == 1:
        put_in(design, place, Node("param", word="localparam", defs=[pdef(word, name(word + "l"))]),
               Node("param", word="localparam", defs=[pdef(word + "l", num(1))]))
    elif form in (2, 3):
        inner = Node("param", word="localparam", defs=[pdef(design.fresh("k"), binary("+", name(word), num(1)))])
        late = Node("param", word="localparam", defs=[pdef(word, num(1))])
        first = genif(num(1), gblock(inner)) if form == 2 else genfor(
            word + "g", num(0), binary("<", name(word + "g"), num(2)), binary("+", name(word + "g"), num(1)),
            gblock(inner))
        both = [first, late] if design.chance(0.8) else [late, first]
        put_in(design, place, *([Node("genvar", words=[word + "g"])] if form == 3 else []), *both)
    elif form == 4:
        put_in(design, place, decl("reg", [dname(word, other)]))
    elif form == 5:
        put_in(design, place, decl("wire", [word], bounds(num(3), num(0))), assign(target(word, index(other)), num(1)))
    elif form == 6:
        put_in(design, place, decl("reg", [word], bounds(num(3), num(0))),
               Node("initial", body=put(target(word, index(other)), num(1))))
    elif form == 7:
        put_in(design, place, genif(other, gblock()))
    elif form == 8 and place.all_constants():
        use(design, place, name(rng.choice(place.all_constants()), index(other)))
    elif form == 9:
        later_around(design, place)
    elif form == 10:
        given_without_value(design, place)
    else:
        use(design, place, rng.choice([repl(other, num(1, 1)), name(other.word, plus(num(0), clone(other)))]))


def zero_divisor(design, place):
    rng, word = design.rng, design.fresh("d")
    form = rng.randrange(5)
    if form == 0:
        put_in(design, place, Node("param", word="localparam", defs=[pdef(
            word, zero(design), rng.choice([None, bounds(num(8), num(0))]), design.chance(0.3))]))
    elif form == 1:
        put_in(design, place, decl("reg", [dname(word, zero(design))], bounds(num(rng.choice([7, 8])), num(0))))
    elif form == 2:
        parts = [target(word), target(word + "b")]
        put_in(design, place, decl("wire", [word, word + "b"], bounds(num(rng.choice([3, 99])), num(0))),
               assign(Node("targets", parts=parts), binary("+", num(3, 8), zero(design))))
    elif form == 3 and design.instances:
        _, inst, module = rng.choice(design.instances)
        for each in module.params:
            inst.overrides = [conn(each.word, zero(design))]
    else:
        use(design, place, rng.choice([zero(design), repl(binary("/", num(1), num(0)), num(1, 1)),
                                       Node("sys", op="$signed", inner=zero(design))]))


def too_wide(design, place):
    rng, word = design.rng, design.fresh("x")
    form = rng.randrange(8)
    shape = bounds(num(rng.choice([128, 128, 127, 200])), num(rng.choice([0, -0])))
    if form == 0:
        put_in(design, place, decl("wire", [dname(word, num(0))], shape))
    elif form == 1:
        put_in(design, place, decl("reg", [dname(word, None, bounds(num(0), num(1)))], shape))
    elif form == 2:
        put_in(design, place, Node("param", word="localparam", defs=[pdef(word, num(1), shape)]))
    elif form == 3:
        parts = [target(word), target(word + "b")]
        put_in(design, place, decl("reg", [word, word + "b"], bounds(num(79), num(0))),
               always(put(Node("targets", parts=parts), rng.choice([num(0), zero(design)])), "*"))
    elif form == 4:
        use(design, place, name(signal(design, place, "net"), rng.choice([
            part(num(200), num(0)), plus(num(0), num(129)), part(num(127), num(0))])))
    elif form == 5:
        use(design, place, binary("+", concat(wide(), num(1)), num(1)))
    elif form == 6 and design.modules:
        rng.choice(design.modules).ports[-1].range = shape
    else:
        use(design, place, rng.choice([wide(rng.choice([128, 129, 2147483647])), binary("+", num(1), wide()), concat(
            repl(num(100), num(1, 1)), repl(num(rng.choice([28, 29])), num(1, 1)))]))


def too_large(design, place):
    """Names past the limit by memories of many words, or nodes by modules that each hold two of the next."""
    rng, word = design.rng, design.fresh("l")
    words = [decl("reg", [dname(design.fresh("l"), None, bounds(num(0), num(most)))]) for most in
             rng.choice([[200000], [150000, 60000], [199000, 500, 600], [60000], [250000]])]
    if rng.random() < 0.7:
        put_in(design, place, *words)
        return
    terms = [binary("+", num(1), num(2)) for _ in range(200)]
    value = concat(*(Node("sys", op="$unsigned", inner=each) for each in terms[:3]))
    items = [decl("wire", [dname(design.fresh("w"), clone(value))]) for _ in range(80)]
    if design.chance(0.5):
        items = many_blocks(design) + items[:6]
    last = Node("module", word=word, params=[], ports=[], items=items)
    design.source.modules.append(last)
    for _ in range(14):
        both = [instance(last.word, design.fresh("u"), []) for _ in range(2)]
        last = Node("module", word=design.fresh("l"), params=[], ports=[], items=both)
        design.source.modules.append(last)
    put_in(design, place, instance(last.word, design.fresh("u"), []))


def kind_fault(design, place):
    rng, word = design.rng, design.fresh("y")
    form = rng.randrange(9)
    if form == 0:
        put_in(design, place, always(put(target(signal(design, place, "net", "in")), num(1)), "*"))
    elif form == 1:
        put_in(design, place, assign(target(signal(design, place, "reg", "mem")), num(1)))
    elif form == 2:
        goal = target(signal(design, place, "free-reg", "free-wire", "free-integer"))
        put_in(design, place, rng.choice([assign(goal, num(1)), always(put(goal, num(1)), "*")]))
    elif form == 3 and place.all_constants():
        put_in(design, place, assign(target(rng.choice(place.all_constants())), num(1)))
    elif form == 4:
        loop(design, place, word=signal(design, place, "net", "reg"), declared=False,
             step=rng.choice([None, name("nosuch"), num(1)]))
    elif form == 5:
        outer = design.fresh("g")
        step = rng.choice([num(5), name("nosuch"), wide()])
        again = genfor(outer, num(0), binary("<", name(outer), num(2)), step, gblock())
        loop(design, place, word=outer, items=[again])
    elif form == 6:
        put_in(design, place, decl(rng.choice(["reg", "wire"]), [dname(word, num(1))], None, False, ["anyseq"]))
    elif form == 7 and design.modules:
        for each in rng.choice(design.modules).ports:
            if each.direction == "input":
                each.value = num(1)
                return
    else:
        put_in(design, place, Node("initial", body=put(target(signal(design, place, "net", "in")), num(1))))


def drivers_loop(design, place):
    a, b = design.fresh("a"), design.fresh("b")
    vector, rng = bounds(num(3), num(0)), design.rng
    form = rng.randrange(6)
    made = decl("wire", [a, b], vector)
    if form == 0:
        put_in(design, place, made, assign(target(a), name(b)), assign(target(b), name(a)))
    elif form == 1:
        back = assign(target(b), name(a, index(num(7))))
        put_in(design, place, made, assign(target(a), name(b, index(num(1)))), back)
    elif form == 2:
        put_in(design, place, decl("reg", [a], vector), always(block(put(target(a, index(num(0))), name(a, index(
            num(rng.randint(0, 1)))))), "*"))
    elif form == 3:
        turns = [assign(target(a, index(name("gl" + a))), name(b, index(name("gl" + a))))]
        put_in(design, place, made, assign(target(b), name(a)))
        loop(design, place, word="gl" + a, test=lambda own: binary("<", own, num(4)), items=turns)
    elif form == 4:
        put_in(design, place, decl("reg", [a, b], vector), always(block(put(target(a), name(b))), "*"),
               always(block(put(target(b), name(a))), "*"))
    else:
        where, inst, _ = rng.choice(design.instances) if design.instances else (place, None, None)
        nets = [each.value.word for each in inst.conns if each.value is not None and each.value.kind == "name"
                and each.value.word.startswith("o")] if inst else []
        for each in inst.conns if inst else []:
            if nets and each.value is not None and each.value.kind != "concat" and not (
                    each.value.kind == "name" and each.value.word.startswith(("o", "c"))):
                each.value = name(nets[0])
                return


def latch(design, place):
    word, rng = design.fresh("e"), design.rng
    other = name(signal(design, place))
    goal = rng.choice([target(word), target(word, index(num(1))), target(word, part(num(2), num(1))),
                       target(word, index(other))])
    then = Node("if", test=other, yes=block(put(goal, num(1))), no=None)
    case = Node("case", word="case", value=other, arms=[
        Node("arm", labels=[num(0)], body=put(clone(goal), num(1))), Node("arm", labels=[num(1)], body=Node("empty"))])
    first = [put(target(word, part(num(3), num(rng.randint(0, 2)))), num(0))] if design.chance(0.4) else []
    if design.chance(0.3):
        mem = [put(target(word, index(num(rng.choice([0, 5]))), *rng.choice([[], [index(num(0))]])), num(1))]
        then.yes = block(*mem)
        put_in(design, place, decl("reg", [dname(word, None, bounds(num(0), num(3)))], bounds(num(3), num(0))),
               always(block(rng.choice([then, mem[0]])), "*"))
        return
    put_in(design, place, decl("reg", [word], bounds(num(3), num(0))),
           always(block(*first, rng.choice([then, case])), "*"))


def two_drivers(design, place):
    rng, word = design.rng, design.fresh("j")
    form, shape = rng.randrange(8), bounds(num(3), num(0))
    clock = place.clock
    if form == 0:
        put_in(design, place, decl("wire", [dname(word, num(0))], shape), assign(target(word, index(num(2))), num(1)))
    elif form == 1:
        goal = Node("targets", parts=[target(word), target(word, index(num(rng.randint(0, 4))))])
        put_in(design, place, decl("wire", [word], shape), assign(goal, num(1)))
    elif form == 2 and clock:
        mem = decl("reg", [dname(word, None, bounds(num(0), num(3)))], shape)
        put_in(design, place, mem, clocked(clock, put(target(word, index(num(0))), num(1), "<=")),
               clocked(clock, put(target(word, index(num(rng.choice([1, 1, 9])))), num(1), "<=")))
    elif form == 3:
        put_in(design, place, decl("reg", [word], shape), always(put(target(word), num(1)), "*"),
               always(put(target(word, rng.choice([index(num(1)), index(num(6)), plus(num(2), num(2))])), num(1)), "*"))
    elif form == 4:
        put_in(design, place, decl("wire", [word], bounds(num(4), num(0))))
        loop(design, place, items=[assign(target(word, part(num(1), num(0))), num(1))])
    elif form == 5 and clock:
        put_in(design, place, decl("reg", [word], shape),
               clocked(clock, put(target(word, index(name("reset"))), num(1), "<=")),
               clocked(clock, put(target(word, index(num(3))), num(1), "<=")))
    elif form == 6 and design.modules:
        for each in rng.choice(design.modules).ports:
            if each.direction == "output" and each.net is None:
                each.value = each.value or num(rng.randint(0, 1))
    else:
        for _, inst, _ in design.instances:
            nets = [each for each in inst.conns if each.value is not None and each.value.kind == "name"
                    and each.value.word.startswith("o")]
            if nets:
                nets[0].value = concat(nets[0].value, clone(nets[0].value))
                return


def undriven(design, place):
    rng, word = design.rng, design.fresh("n")
    form = rng.randrange(4)
    if form == 0:
        put_in(design, place, decl("wire", [word], bounds(num(3), num(0))))
    elif form == 1:
        shape = rng.choice([(7, 0), (0, 7), (4, -3)])
        both = [num(shape[0]), num(shape[1]) if shape[1] >= 0 else unary("-", num(3))]
        word_part = part(num(5), num(2)) if shape != (0, 7) else part(num(2), num(5))
        put_in(design, place, decl("wire", [word], bounds(*both)), assign(target(word, word_part), num(1)))
    elif form == 2 and design.instances:
        conns = rng.choice(design.instances)[1].conns
        if conns:
            conns.pop(rng.randrange(len(conns)))
    else:
        items = [decl("wire", [word])]
        put_in(design, place, genif(num(1), gblock(*items, label=rng.choice([None, None, "genblk1"]))))


def shared(design, place):
    rng, word, clock = design.rng, design.fresh("p"), place.clock
    if not clock:
        return
    other = name(signal(design, place))
    goal = rng.choice([target(word), target(word, index(num(1))), target(word, index(num(9)))])
    read = rng.choice([name(word), name(word, index(num(1))), name(word, index(num(9))), name(word, index(other))])
    put_in(design, place, decl("reg", [word], bounds(num(3), num(0))), clocked(clock, put(goal, num(1))))
    use(design, place, read) if design.chance(0.5) else put_in(
        design, place, decl("wire", [dname(design.fresh("w"), read)]))


def mixed(design, place):
    rng, word, clock = design.rng, design.fresh("c"), place.clock
    shape = bounds(num(3), num(0))
    later = put(target(word, *rng.choice([[], [index(num(9))], [index(num(0))]])), num(1), "<=")
    first = put(target(word, *rng.choice([[], [], [index(num(8))]])), num(0))
    if clock and design.chance(0.5):
        put_in(design, place, decl("reg", [word], shape), clocked(clock, block(first, later)))
    else:
        put_in(design, place, decl("reg", [word], shape), always(block(*rng.choice([[first, later], [later]])), "*"))


def missing(design, place):
    form, ports = design.rng.randrange(3), design.top.ports

    def without(item):
        return [each for each in item.pairs if getattr(each.target, "word", "") != gone.word] or item.pairs
    outputs = [each for each in ports if each.direction == "output"]
    gone = design.rng.choice(outputs)
    if form == 0:
        ports.remove(gone)
        design.top.items.insert(0, decl("wire", [gone.word], gone.range))
    elif form == 1:
        ports.remove(gone)
        for item in design.top.items:
            if item.kind == "assign":
                item.pairs = without(item)
    else:
        gone.direction = "input"
        for item in design.top.items:
            if item.kind == "assign":
                item.pairs = without(item)


def width(design, place):
    gone = design.rng.choice([each for each in design.top.ports if each.direction == "output"])
    gone.range = design.rng.choice([None, bounds(num(0), num(31)), bounds(num(design.rng.randint(0, 70)), num(0))])


def needs_aligned(design, place):
    design.wants_dmem, design.aligned = True, False


def heavy(design, place):
    """Products of 128 bits, and at times more that weighs."""
    rng, word = design.rng, design.fresh("f")
    put_in(design, place, decl("reg", [word], bounds(num(127), num(0)), False, ["anyseq"]))
    product = binary("*", name(word), name(word))
    put_in(design, place, *(decl("wire", [dname(design.fresh("w"), clone(product))], bounds(num(127), num(0)))
                            for _ in range(rng.randint(1, 3))))
    mem, vector = signal(design, place, "mem"), name(signal(design, place))
    more = rng.choice([
        decl("wire", [dname(design.fresh("w"), name(mem, index(num(1)), index(vector)))]),
        decl("wire", [dname(design.fresh("w"), name(mem, index(vector), plus(clone(vector), num(1))))]),
        decl("wire", [dname(design.fresh("w"), name(mem, index(vector)))])])
    put_in(design, place, more)
    if place.clock:
        goal = target(design.fresh("m"), index(num(1)), index(vector))
        put_in(design, place, decl("reg", [dname(goal.word, None, bounds(num(0), num(3)))], bounds(num(5), num(0))),
               clocked(place.clock, put(goal, num(1), "<=")))
    design.cycle = rng.choice([100, 100, 100, 75, 74])


FAULTS = [no_module, twice, unknown, port_fault, param_fault, recursive, range_fault, gen_loop, many_bits, clock_fault,
          not_constant, zero_divisor, too_wide, too_large, kind_fault, drivers_loop, latch, two_drivers, undriven,
          shared, mixed, missing, width, needs_aligned, heavy, heavy, exact_loop, gen_loop, port_fault, unknown]


def plant_faults(design):
    """None to three faults of different kinds."""
    for each in design.rng.sample(FAULTS, design.rng.choice([0, 1, 1, 1, 2, 2, 3])):
        each(design, design.rng.choice(design.places))
