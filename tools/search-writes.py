#!/usr/bin/env python3
"""Searches for a form of a word behind a write under a mask that is less deep than the one of `wn_mem`, which is four
nodes deep. Not part of the gate.

    tools/search-writes.py

It makes all values that nodes have up to two deep, over words of two bits: the mask, what is written, the word, the
four constants, the bit that enables the write, and, one deep, whether the address is the word's number. The nodes are
those of `wn_net` that answer a word of their operands' width: `~`, `&`, `|`, `^`, `+`, `-`, `*`, the three shifts, a
choice, and a bit made a word by either extension. Then it looks for two of the values, or a choice by any test of the
two bits, that make the word behind the write by one node more. Prints how many values there are, and each form found.
"""
import itertools

CASES = list(itertools.product((0, 1), (0, 1), range(4), range(4), range(4)))
ALL = (1 << len(CASES)) - 1


def bits_where(holds):
    return sum(1 << index for index, case in enumerate(CASES) if holds(*case))


def word_of(number):
    """Returns the high and the low bits of a number in all cases."""
    return tuple(bits_where(lambda *case, bit=bit: number(*case) & bit) for bit in (2, 1))


def masked(mask, value, word):
    return mask & value | ~mask & word


ENABLES, IS_AT = bits_where(lambda e, a, m, v, w: e), bits_where(lambda e, a, m, v, w: a)
CHANGED = word_of(lambda e, a, m, v, w: masked(m, v, w))
WRITTEN = word_of(lambda e, a, m, v, w: masked(m, v, w) if e and a else w)


def chosen(test, yes, no):
    return tuple(y & test | n & ~test for y, n in zip(yes, no))


OPERATORS = {
    "&": lambda a, b: (a[0] & b[0], a[1] & b[1]),
    "|": lambda a, b: (a[0] | b[0], a[1] | b[1]),
    "^": lambda a, b: (a[0] ^ b[0], a[1] ^ b[1]),
    "+": lambda a, b: (a[0] ^ b[0] ^ a[1] & b[1], a[1] ^ b[1]),
    "-": lambda a, b: (a[0] ^ b[0] ^ ~a[1] & b[1] & ALL, a[1] ^ b[1]),
    "*": lambda a, b: (a[1] & b[0] ^ a[0] & b[1], a[1] & b[1]),
    "<<": lambda a, b: (a[0] & ~(b[0] | b[1]) | a[1] & ~b[0] & b[1], a[1] & ~(b[0] | b[1])),
    ">>": lambda a, b: (a[0] & ~(b[0] | b[1]), a[1] & ~(b[0] | b[1]) | a[0] & ~b[0] & b[1]),
    ">>>": lambda a, b: (a[0], a[1] & ~(b[0] | b[1]) | a[0] & (b[0] | b[1])),
}


def level(words, tests, bit):
    """Returns the words, and those of one node more, of which a bit's extensions are two; each with a form of it."""
    more = dict(words)
    for word, form in words.items():
        more.setdefault((word[0] ^ ALL, word[1] ^ ALL), f"~{form}")
    for (a, left), (b, right) in itertools.product(words.items(), repeat=2):
        for sign, operate in OPERATORS.items():
            more.setdefault(operate(a, b), f"({left} {sign} {right})")
        for name, test in tests.items():
            more.setdefault(chosen(test, a, b), f"({name} ? {left} : {right})")
    for word, name in (((bit, bit), "sext"), ((0, bit), "zext")):
        more.setdefault(word, name)
    return more


def agree(word, where):
    return not any((a ^ b) & where for a, b in zip(word, WRITTEN))


def pairs(words):
    """Gives for each operator the pairs that can make the written word, by what it asks of each of the two."""
    def those(holds):
        return [word for word in words if holds(word)]

    def zero(where):
        return those(lambda word: not (word[0] | word[1]) & where)

    high, low = WRITTEN
    above = those(lambda word: word[0] & high == high and word[1] & low == low)
    below = those(lambda word: word[0] | high == high and word[1] | low == low)
    odd = those(lambda word: word[1] & low == low)
    yield "&", itertools.product(above, repeat=2)
    yield "|", itertools.product(below, repeat=2)
    yield "*", itertools.product(odd, repeat=2)
    # a shift by 1 or more has no lowest bit to the left, no highest one to the right, and two alike by sign
    yield "<<", itertools.product(those(lambda word: agree(word, low)), zero(low))
    yield ">>", itertools.product(those(lambda word: agree(word, high)), zero(high))
    yield ">>>", itertools.product(those(lambda word: agree(word, high ^ low)), zero(high ^ low))
    # the other operand is one alone: for `a + b` it is the written word less a
    yield "^", ((a, OPERATORS["^"](WRITTEN, a)) for a in words)
    yield "+", ((a, OPERATORS["-"](WRITTEN, a)) for a in words)
    yield "-", ((a, OPERATORS["-"](a, WRITTEN)) for a in words)


def main():
    words = {word_of(lambda *case, index=index: case[index]): name for index, name in ((2, "m"), (3, "v"), (4, "w"))}
    words.update({word_of(lambda *case, number=number: number): str(number) for number in range(4)})
    one = level(words, {"e": ENABLES}, ENABLES)
    two = level(one, {"e": ENABLES, "a": IS_AT}, IS_AT)
    changed = two.get(CHANGED, "none of them")
    print(f"{len(one)} values up to one deep, {len(two)} up to two; the word with the changed bits is {changed}")
    forms = [f"{two[a]} {sign} {two[b]}" for sign, found in pairs(two) for a, b in found
             if b in two and OPERATORS[sign](a, b) == WRITTEN]
    forms += [f"~{two[word]}" for word in two if (word[0] ^ ALL, word[1] ^ ALL) == WRITTEN]
    for tests in range(1, 15):
        where = bits_where(lambda e, a, m, v, w, tests=tests: tests >> 2 * e + a & 1)
        if any(agree(word, where) for word in two) and any(agree(word, ALL ^ where) for word in two):
            forms.append(f"a choice by the test {tests:04b}")
    print("\n".join(forms) if forms else "no form is three deep")


main()
