"""What the faults of compare-refusals.py are made of: refused expressions, and ways to put them into a design."""
from refusal_trees import (PARTS, Node, always, assign, binary, bounds, concat, cond, conn, decl, dname, gblock, genfor,
                           genif, instance, name, num, pdef, put, repl, target)

EXPRS = {"num", "name", "paren", "unary", "binary", "cond", "concat", "repl", "sys"}
ZERO_COUNT = repl(num(0), num(1, 1))


def wide(width=129):
    return repl(num(width), num(1, 1))


def zero(design):
    """A division by 0; of some the divisor is 0 at some sizes alone."""
    rng = design.rng
    late = binary("+", num(255, 8), num(1, 8))
    return rng.choice([
        binary("/", num(4), num(0)), binary("%", num(4), binary("-", num(3), num(3))), binary("/", num(200, 8), late),
        binary("/", num(200, 8), binary("-", num(1, 8), binary(">>", late, num(8)))),
        binary("/", num(1), concat(binary("/", num(1), num(0)))), cond(num(1), num(2), binary("/", num(1), num(0)))])


def signal(design, place, *kinds):
    """The word of some signal of these kinds that the place reads, or one that is made there."""
    found = [each for each in place.all_signals() if not kinds or each.kind in kinds]
    if found and design.chance(0.8):
        return design.rng.choice(found).word
    word, kind = design.fresh("s"), kinds[0] if kinds else "reg"
    attrs = ["anyseq"] if kind.startswith("free") else []
    words = bounds(num(0), num(3)) if kind == "mem" else None
    head = "wire" if kind == "net" else "integer" if kind == "free-integer" else "reg"
    shape = None if head == "integer" else bounds(num(3), num(0))
    put_in(design, place, decl(head, [dname(word, num(0) if kind == "net" else None, words)], shape, False, attrs))
    return word


def put_in(design, place, *items):
    """Puts items at random spots, in their order."""
    spots = sorted(design.rng.randint(0, len(place.items)) for _ in items)
    for moved, (spot, item) in enumerate(zip(spots, items)):
        place.items.insert(spot + moved, item)


def slots(design):
    """Each place of an operand, as the node above, the field and the number in its list."""
    found = []
    for module in design.source.modules:
        for node in module.walk():
            for field in PARTS[node.kind]:
                got = getattr(node, field)
                if isinstance(got, list):
                    found += [(node, field, at) for at, each in enumerate(got) if each.kind in EXPRS]
                elif got is not None and got.kind in EXPRS:
                    found.append((node, field, None))
    return found


def plant(design, expr):
    """Puts an expression in the place of a random operand; one in four of a bound, a count or a loop's head."""
    found = slots(design)
    if design.chance(0.3):
        found = [each for each in found if each[0].kind in ("range", "part", "plus", "genfor", "genif", "index")
                 or each[1] == "count"] or found
    node, field, at = design.rng.choice(found)
    expr = Node("paren", inner=expr) if expr.kind in ("binary", "cond", "unary") else expr
    if at is None:
        setattr(node, field, expr)
    else:
        getattr(node, field)[at] = expr


def use(design, place, expr):
    """Reads an expression: in the value of a wire, in a block, in a connection, in a bound, or anywhere."""
    rng, word = design.rng, design.fresh("z")
    form = rng.random()
    if form < 0.3:
        plant(design, expr)
    elif form < 0.5:
        put_in(design, place, decl("wire", [dname(word, expr)], bounds(num(3), num(0))))
    elif form < 0.7:
        shape = bounds(num(rng.choice([3, 8])), num(0))
        put_in(design, place, decl("reg", [word], shape), always(put(target(word), expr), "*"))
    elif form < 0.8:
        put_in(design, place, always(Node("assume", value=expr), "*"))
    elif form < 0.9 and design.instances:
        inst = rng.choice(design.instances)[1]
        for each in inst.conns:
            if each.value is not None and each.value.kind != "name":
                each.value = expr
                return
        inst.conns.append(conn(design.fresh("n"), expr))
    else:
        put_in(design, place, decl("wire", [word], bounds(expr, num(0))), assign(target(word), num(0)))


def loop(design, place, start=None, test=None, step=None, items=(), word=None, declared=True):
    """A generate loop over a new genvar; `start`, `test` and `step` may be functions of its name."""
    word = word or design.fresh("g")
    given = [each(name(word)) if callable(each) else each for each in (start, test, step)]
    start, test, step = [each or default for each, default in zip(given, [
        num(0), binary("<", name(word), num(3)), binary("+", name(word), num(1))])]
    label = design.fresh("b") if design.chance(0.5) else None
    item = genfor(word, start, test, step, gblock(*items, label=label))
    put_in(design, place, *([Node("genvar", words=[word])] if declared else []), item)
    return item


def local(word, value, range=None):
    return Node("param", word="localparam", defs=[pdef(word, value, range)])


def later_around(design, place):
    """A parameter two blocks deep that uses a later one of a scope around, which the block between may hide."""
    rng, word = design.rng, design.fresh("k")
    inner = rng.choice([local(design.fresh("k"), binary("+", name(word), num(1))),
                        local(design.fresh("k"), num(1), bounds(name(word), num(0)))])
    deep = genif(num(1), gblock(inner, label=design.fresh("b")))
    own = rng.choice([[], [], [local(word, num(2))], [decl("wire", [dname(word, num(0))])]])
    between = own + [deep] if design.chance(0.5) else [deep] + own
    late = local(word, num(1))
    if design.chance(0.5):
        both = [genif(num(1), gblock(*between)), late]
        put_in(design, place, *(both if design.chance(0.8) else both[::-1]))
    else:
        loop(design, place, items=between)
        place.items.append(late)


def given_without_value(design, place):
    """A parameter that is given what has no value, since its own declaration is refused, perhaps through a module."""
    rng, word = design.rng, design.fresh("k")
    use_of = rng.choice([
        [genif(name("P"), gblock(), gblock(instance(design.fresh("absent"), design.fresh("u"), [])))],
        [decl("wire", [design.fresh("w")], bounds(name("P"), num(0)))],
        [local(design.fresh("k"), binary("/", num(4), name("P")))]])
    last = Node("module", word=design.fresh("m"), params=[], ports=[], items=[
        Node("param", word="parameter", defs=[pdef("P", num(1))])] + use_of)
    design.source.modules.append(last)
    if design.chance(0.4):
        last = Node("module", word=design.fresh("m"), params=[], ports=[], items=[
            Node("param", word="parameter", defs=[pdef("P", num(0))]),
            instance(last.word, design.fresh("u"), [], [conn("P", name("P"))])])
        design.source.modules.append(last)
    value = rng.choice([name(word), binary("+", name(word), num(1))])
    both = [instance(last.word, design.fresh("u"), [], [conn("P", value)]), local(word, rng.choice([
        name("nosuch"), binary("/", num(1), num(0)), num(2)]))]
    put_in(design, place, *(both if design.chance(0.5) else both[::-1]))


def many_blocks(design):
    """Regions and blocks, which are nodes, in turns, in the branches of an `if` and in each other."""
    rng, found = design.rng, []
    for _ in range(10):
        word = design.fresh("g")
        nested = gblock(genif(num(rng.randint(0, 1)), gblock(), gblock(Node("genvar", words=["x", "y"]))), begin=False)
        turns = genfor(word, num(0), binary("<", name(word), num(2)), binary("+", name(word), num(1)), rng.choice([
            gblock(), gblock(genif(num(1), gblock()), begin=False), gblock(genif(num(0), gblock()))]))
        parts = [Node("genvar", words=[word]), genif(num(rng.randint(0, 1)), gblock(), nested), turns]
        found += [Node("region", items=parts)] if design.chance(0.6) else parts
    return found
