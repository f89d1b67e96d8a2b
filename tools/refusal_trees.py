"""Trees of Verilog texts for compare-refusals.py, and the text of a tree with the place of each node.

A node has a kind, a place and the fields of its kind. PARTS says for each kind which fields hold nodes, lists of nodes
or None, in reading order. The place is (line, column) of the node's first token, attributes aside; `at` is the number
of tokens up to it, so that nodes compare in reading order.
"""
import copy

PARTS = {
    "num": (), "name": ("selects",), "paren": ("inner",), "unary": ("inner",), "binary": ("left", "right"),
    "cond": ("test", "yes", "no"), "concat": ("parts",), "repl": ("count", "parts"), "sys": ("inner",),
    "index": ("first",), "part": ("first", "last"), "plus": ("first", "last"),
    "target": ("selects",), "targets": ("parts",), "wild": (),
    "range": ("first", "last"), "decl": ("range", "names"), "dname": ("words", "value"), "genvar": (),
    "param": ("defs",), "pdef": ("range", "value"), "assign": ("pairs",), "pair": ("target", "value"),
    "always": ("body",), "initial": ("body",), "instance": ("overrides", "conns"), "conn": ("value",),
    "genfor": ("start", "test", "step", "block"), "genif": ("test", "yes", "no"), "gblock": ("items",),
    "region": ("items",), "block": ("body",), "if": ("test", "yes", "no"), "case": ("value", "arms"),
    "arm": ("labels", "body"), "set": ("target", "value"), "assume": ("value",), "empty": (),
    "port": ("range", "value"), "module": ("params", "ports", "items"), "source": ("modules",),
}
BINARY = {op: level for level, ops in enumerate(
    ["||", "&&", "|", "^ ~^ ^~", "&", "== != === !==", "< <= > >=", "<< >> <<< >>>", "+ -", "* / %"])
    for op in ops.split()}


class Node:
    def __init__(self, kind, **fields):
        self.kind, self.place, self.at = kind, None, None
        self.__dict__.update(fields)

    def children(self):
        """The nodes below this one, in reading order."""
        for field in PARTS[self.kind]:
            value = getattr(self, field)
            if isinstance(value, list):
                yield from value
            elif value is not None:
                yield value

    def walk(self):
        """This node and all below it, a node before its parts."""
        yield self
        for child in self.children():
            yield from child.walk()


def clone(node):
    return copy.deepcopy(node)


def unshared(node):
    """A copy in which no node stands in two places."""
    made = Node(node.kind)
    for field, got in node.__dict__.items():
        if isinstance(got, list):
            got = [unshared(each) if isinstance(each, Node) else each for each in got]
        elif isinstance(got, Node):
            got = unshared(got)
        setattr(made, field, got)
    return made


def num(value, width=None, signed=None, base="d"):
    """A number; without a width an unsized one of 32 bits."""
    if width is None and base == "d" and signed is None:
        return Node("num", text=str(value), width=32, signed=True, value=value)
    digits = {"d": "{}", "b": "{:b}", "h": "{:x}", "o": "{:o}"}[base].format(value)
    size = 32 if width is None else width
    text = f"{'' if width is None else width}'{'s' if signed else ''}{base}{digits}"
    return Node("num", text=text, width=size, signed=bool(signed), value=value % (1 << size))


def name(word, *selects):
    return Node("name", word=word, selects=list(selects))


def target(word, *selects):
    return Node("target", word=word, selects=list(selects))


def index(first):
    return Node("index", first=first)


def part(first, last):
    return Node("part", first=first, last=last)


def plus(first, last):
    return Node("plus", first=first, last=last)


def bounds(first, last):
    return Node("range", first=first, last=last)


def simple(expr):
    """The expression, bracketed where it isn't a primary."""
    return Node("paren", inner=expr) if expr.kind in ("binary", "cond", "unary") else expr


def unary(op, inner):
    return Node("unary", op=op, inner=simple(inner))


def binary(op, left, right):
    """`left op right`; a left operand of the same level or a higher one stays as it is."""
    keep = left.kind == "binary" and BINARY[left.op] >= BINARY[op] or left.kind == "unary"
    return Node("binary", op=op, left=left if keep else simple(left), right=simple(right))


def cond(test, yes, no):
    return Node("cond", test=simple(test), yes=simple(yes), no=simple(no))


def concat(*parts):
    return Node("concat", parts=list(parts))


def repl(count, *parts):
    return Node("repl", count=count, parts=list(parts))


def block(*body):
    return Node("block", label=None, body=list(body))


def gblock(*items, label=None, begin=True):
    return Node("gblock", begin=begin, label=label, items=list(items))


def assign(goal, value):
    return Node("assign", pairs=[Node("pair", target=goal, value=value)])


def put(goal, value, op="="):
    return Node("set", target=goal, value=value, op=op)


def decl(word, names, range=None, signed=False, attrs=()):
    return Node("decl", word=word, signed=signed, range=range, attrs=list(attrs), names=[
        each if isinstance(each, Node) else dname(each) for each in names])


def dname(word, value=None, words=None):
    return Node("dname", word=word, words=words, value=value)


def pdef(word, value, range=None, signed=False):
    return Node("pdef", word=word, value=value, range=range, signed=signed)


def conn(word, value):
    return Node("conn", word=word, value=value)


def instance(module, word, conns, overrides=()):
    return Node("instance", module=module, word=word, conns=list(conns), overrides=list(overrides))


def genfor(word, start, test, step, body):
    return Node("genfor", word=word, start=start, test=test, step=step, block=body)


def genif(test, yes, no=None):
    return Node("genif", test=test, yes=yes, no=no)


def always(body, event="*", word=None):
    return Node("always", body=body, event=event, word=word)


def clocked(word, body):
    return always(body, "posedge", word)


def port(word, direction, range=None, value=None, kind=None, signed=False, short=False, attrs=()):
    return Node("port", word=word, direction=direction, range=range, value=value, net=kind, signed=signed, short=short,
                attrs=list(attrs))


class Printer:
    """Writes tokens, parted by one blank, over lines of up to 100 columns. `new_line` ends a line."""

    def __init__(self):
        self.lines, self.line, self.count, self.is_new = [], "", 0, True

    def put(self, word):
        """Writes a token and answers its place and number."""
        if len(self.line) > 100:
            self.new_line()
        if not self.is_new:
            self.line += " "
        place = (len(self.lines) + 1, len(self.line) + 1)
        self.line += word
        self.count, self.is_new = self.count + 1, False
        return place, self.count

    def words(self, *words):
        for word in words:
            self.put(word)

    def new_line(self, indent=0):
        self.lines.append(self.line)
        self.line, self.is_new = "  " * indent, True

    def text(self):
        return "\n".join(self.lines + [self.line]) + "\n"


def show(source):
    """The text of a source; sets the place of each node in it."""
    out = Printer()
    for module in source.modules:
        emit(module, out)
        out.new_line()
    return out.text()


def emit(node, out):
    """Writes a node whose place is that of its first token."""
    before, count = (len(out.lines), len(out.line)), out.count
    first = FIRST.get(node.kind)
    if first:
        node.place, node.at = first(node, out)
    else:
        WRITE[node.kind](node, out)
        lead = next(node.children(), None)
        assert lead is not None and lead.at == count + 1, (node.kind, before)
        node.place, node.at = lead.place, lead.at


def many(nodes, out, between=","):
    for number, node in enumerate(nodes):
        if number and between:
            out.put(between)
        emit(node, out)


def led(word, rest):
    """A writer of a node that begins with a word."""
    def write(node, out):
        place = out.put(word if isinstance(word, str) else word(node))
        rest(node, out)
        return place
    return write


def write_attrs(node, out):
    if node.attrs:
        out.put("(*")
        for number, word in enumerate(node.attrs):
            if number:
                out.put(",")
            out.put(word)
        out.put("*)")


def write_bounds(node, out, between=":"):
    emit(node.first, out)
    out.put(between)
    emit(node.last, out)
    out.put("]")


def write_cond(node, out):
    emit(node.test, out)
    out.put("?")
    emit(node.yes, out)
    out.put(":")
    emit(node.no, out)


def write_binary(node, out):
    emit(node.left, out)
    out.put(node.op)
    emit(node.right, out)


def write_repl(node, out):
    emit(node.count, out)
    out.put("{")
    many(node.parts, out)
    out.words("}", "}")


def write_shape(node, out):
    """`signed` and the range of a declaration."""
    if node.signed:
        out.put("signed")
    if node.range:
        emit(node.range, out)


def write_value(node, out):
    if node.value is not None:
        out.put("=")
        emit(node.value, out)


def write_decl(node, out):
    write_attrs(node, out)
    place = out.put(node.word)
    write_shape(node, out)
    many(node.names, out)
    out.put(";")
    return place


def write_dname(node, out):
    place = out.put(node.word)
    if node.words:
        emit(node.words, out)
    write_value(node, out)
    return place


def write_pdef(node, out):
    place = None
    if node.signed:
        place = out.put("signed")
    if node.range:
        emit(node.range, out)
        place = place or (node.range.place, node.range.at)
    named = out.put(node.word)
    write_value(node, out)
    return place or named


def write_port(node, out):
    if not node.short:
        write_attrs(node, out)
    place = node.named = out.put(node.word if node.short else node.direction)
    if not node.short:
        if node.net:
            out.put(node.net)
        write_shape(node, out)
        node.named = out.put(node.word)
    write_value(node, out)
    return place


def write_always(node, out):
    out.put("@")
    if node.event == "posedge":
        node.bracket = out.put("(")
        out.words("posedge", node.word, ")")
    else:
        out.words(*node.event.split())
    emit(node.body, out)


def write_conns(nodes, out):
    out.put("(")
    many(nodes, out)
    out.put(")")


def write_conn(node, out):
    out.words(node.word, "(")
    if node.value is not None:
        emit(node.value, out)
    out.put(")")


def write_instance(node, out):
    if node.overrides:
        out.put("#")
        write_conns(node.overrides, out)
    out.put(node.word)
    write_conns(node.conns, out)
    out.put(";")


def write_genfor(node, out):
    out.words("(", node.word, "=")
    emit(node.start, out)
    out.put(";")
    emit(node.test, out)
    out.words(";", node.word, "=")
    emit(node.step, out)
    out.put(")")
    emit(node.block, out)


def write_if(node, out):
    out.put("(")
    emit(node.test, out)
    out.put(")")
    emit(node.yes, out)
    if node.no is not None:
        out.put("else")
        emit(node.no, out)


def write_gblock(node, out):
    if not node.begin:
        emit(node.items[0], out)
        return node.items[0].place, node.items[0].at
    place = out.put("begin")
    if node.label:
        out.words(":", node.label)
    write_items(node, out)
    out.put("end")
    return place


def write_items(node, out):
    for item in node.items:
        out.new_line(1)
        emit(item, out)
    out.new_line()


def write_block(node, out):
    if node.label:
        out.words(":", node.label)
    many(node.body, out, None)
    out.put("end")


def write_case(node, out):
    out.put("(")
    emit(node.value, out)
    out.put(")")
    many(node.arms, out, None)
    out.put("endcase")


def write_arm(node, out):
    place = None
    if node.labels:
        many(node.labels, out)
        out.put(":")
        place = node.labels[0].place, node.labels[0].at
    else:
        place = out.put("default")
        out.put(":")
    emit(node.body, out)
    return place


def write_set(node, out):
    emit(node.target, out)
    out.put(node.op)
    emit(node.value, out)
    out.put(";")


def write_module(node, out):
    out.put(node.word)
    if node.params:
        out.words("#", "(")
        for number, each in enumerate(node.params):
            out.words(*([","] if number else []), "parameter")
            emit(each, out)
        out.put(")")
    out.put("(")
    for number, each in enumerate(node.ports):
        if number:
            out.put(",")
        out.new_line(1)
        emit(each, out)
    out.words(")", ";")
    write_items(node, out)
    out.put("endmodule")


def ended(write, end):
    def both(node, out):
        write(node, out)
        out.put(end)
    return both


def one(field):
    return lambda node, out: emit(getattr(node, field), out)


FIRST = {
    "num": led(lambda node: node.text, lambda node, out: None),
    "wild": led(lambda node: node.text, lambda node, out: None),
    "name": led(lambda node: node.word, lambda node, out: many(node.selects, out, None)),
    "target": led(lambda node: node.word, lambda node, out: many(node.selects, out, None)),
    "paren": led("(", ended(one("inner"), ")")),
    "unary": led(lambda node: node.op, one("inner")),
    "concat": led("{", ended(lambda node, out: many(node.parts, out), "}")),
    "targets": led("{", ended(lambda node, out: many(node.parts, out), "}")),
    "repl": led("{", write_repl),
    "sys": led(lambda node: node.op, lambda node, out: (out.put("("), emit(node.inner, out), out.put(")"))),
    "index": led("[", ended(one("first"), "]")),
    "part": led("[", write_bounds),
    "plus": led("[", lambda node, out: write_bounds(node, out, "+:")),
    "range": led("[", write_bounds),
    "decl": write_decl, "dname": write_dname, "pdef": write_pdef, "port": write_port,
    "genvar": led("genvar", lambda node, out: out.words(*" , ".join(node.words).split(), ";")),
    "param": led(lambda node: node.word, ended(lambda node, out: many(node.defs, out), ";")),
    "assign": led("assign", ended(lambda node, out: many(node.pairs, out), ";")),
    "always": led("always", write_always),
    "initial": led("initial", one("body")),
    "instance": led(lambda node: node.module, write_instance),
    "conn": led(".", write_conn),
    "genfor": led("for", write_genfor),
    "genif": led("if", write_if),
    "gblock": write_gblock,
    "region": led("generate", ended(write_items, "endgenerate")),
    "block": led("begin", write_block),
    "if": led("if", write_if),
    "case": led(lambda node: node.word, write_case),
    "arm": write_arm,
    "assume": led("assume", ended(lambda node, out: (out.put("("), emit(node.value, out), out.put(")")), ";")),
    "empty": led(";", lambda node, out: None),
    "module": led("module", write_module),
}
WRITE = {"binary": write_binary, "cond": write_cond, "set": write_set,
         "pair": lambda node, out: (emit(node.target, out), out.put("="), emit(node.value, out))}
