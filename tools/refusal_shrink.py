"""Makes a text of compare-refusals.py smaller while a difference stays."""
import copy

from refusal_trees import PARTS, num

EXPRS = {"num", "name", "paren", "unary", "binary", "cond", "concat", "repl", "sys"}
NEEDED = {("concat", "parts"), ("repl", "parts"), ("targets", "parts"), ("case", "arms"), ("arm", "labels"),
          ("assign", "pairs"), ("decl", "names"), ("param", "defs"), ("source", "modules")}
OPTIONAL = {("dname", "value"), ("conn", "value"), ("port", "value"), ("genif", "no"), ("decl", "range"),
            ("pdef", "range"), ("dname", "words")}


def smaller(text):
    """Each change to try, the greatest first: a function that makes it and answers how to take it back."""
    nodes = list(text.source.walk())
    for node in nodes:
        for field in PARTS[node.kind]:
            got = getattr(node, field)
            if isinstance(got, list) and got:
                yield from fewer(node, field)
    for node in nodes:
        for field in PARTS[node.kind]:
            got = getattr(node, field)
            if got is not None and not isinstance(got, list) and got.kind in EXPRS | {"gblock", "range"}:
                yield from simpler(node, field, None, got)
            elif isinstance(got, list):
                for at, each in enumerate(got):
                    if each.kind in EXPRS:
                        yield from simpler(node, field, at, each)


def fewer(node, field):
    """Leaves out halves of a list, then single entries."""
    if (node.kind, field) == ("gblock", "items") and not node.begin:
        return
    length = len(getattr(node, field))
    least = 1 if (node.kind, field) in NEEDED else 0
    step = length
    while step:
        for at in range(0, length, step):
            yield lambda at=at, step=step: cut(node, field, at, step, least)
        step = step // 2


def cut(node, field, at, step, least):
    before = getattr(node, field)
    after = before[:at] + before[at + step:]
    if len(after) < least or len(after) == len(before) or has_lone_short(node, field, after):
        return None
    setattr(node, field, after)
    return lambda: setattr(node, field, before)


def has_lone_short(node, field, after):
    return field == "ports" and bool(after) and after[0].short


def simpler(node, field, at, got):
    """Puts 0, 1, nothing or a part of an expression in its place."""
    choices = []
    if (node.kind, field) in OPTIONAL:
        choices.append(None)
    if got.kind in EXPRS and got.kind != "num":
        choices += [num(0), num(1)]
        choices += [each for each in got.children() if each.kind in ("num", "name", "paren", "concat", "repl", "sys")]
    for choice in choices:
        yield lambda choice=choice: swap(node, field, at, choice)


def swap(node, field, at, choice):
    if at is None:
        before = getattr(node, field)
        setattr(node, field, choice)
        return lambda: setattr(node, field, before)
    items = getattr(node, field)
    if at >= len(items):
        return None
    before = items[at]
    items[at] = choice

    def back():
        items[at] = before
    return back


def forget(source):
    """Drops what the reading kept at nodes."""
    for node in source.walk():
        node.__dict__.pop("nodes", None)


def shrink(text, stays, tries):
    """The text without what the difference doesn't need, by at most so many runs."""
    text = copy.deepcopy(text)
    again = True
    while again and tries > 0:
        again = False
        for change in smaller(text):
            if tries <= 0:
                break
            back = change()
            if back is None:
                continue
            forget(text.source)
            tries -= 1
            if holds(text, stays):
                again = True
            else:
                back()
    forget(text.source)
    return text


def holds(text, stays):
    try:
        return stays(text)
    except (AttributeError, AssertionError, IndexError, KeyError, TypeError, ValueError):
        return False
