"""A second reading of clause files (DIMACS) and proofs (LRAT), written from the rules in words: what `rvf lrat` has to
answer. Nothing of the program is used."""
import re

MOST_NAMED = 100_000_000
NUMBER = re.compile(rb"-?[0-9]+\Z")
DIGITS = re.compile(rb"[0-9]+\Z")
ID = re.compile(rb"[0-9]{1,18}\Z")
SHORT = re.compile(rb"-?[0-9]{1,18}\Z")


class Refused(Exception):
    """What is answered, without the word `refused`."""


def lines_of(text):
    """Numbers and words of the lines. A CR directly before the LF is no part of a line; spaces and tabs part words."""
    parts = text.split(b"\n")
    ended = parts.pop()
    lines = [part[:-1] if part.endswith(b"\r") else part for part in parts] + ([ended] if ended else [])
    return [(number, [word for word in re.split(rb"[ \t]", line) if word])
            for number, line in enumerate(lines, start=1)]


def is_comment(words):
    return bool(words) and words[0].startswith(b"c")


def value(word):
    """The number of a word, however long it is."""
    if len(word) < 19:
        return int(word)
    digits = word.lstrip(b"-").lstrip(b"0")
    size = int(digits or b"0") if len(digits) < 20 else 10 ** 20
    return -size if word.startswith(b"-") else size


def header_of(words):
    """Variables and clauses of `p cnf V C`, or None."""
    if len(words) == 4 and words[:2] == [b"p", b"cnf"] and all(DIGITS.match(word) for word in words[2:]):
        counts = [value(word) for word in words[2:]]
        return counts if max(counts) <= MOST_NAMED else None
    return None


def read_dimacs(text):
    """Variables and clauses of a clause file."""
    lines = lines_of(text)
    rest = [(number, words) for number, words in lines if words and not is_comment(words)]
    if not rest:
        raise Refused(f"cnf 1 {len(lines) + 1}")
    number, words = rest[0]
    header = header_of(words)
    if header is None:
        raise Refused(f"cnf 1 {number}")
    clauses, clause, last = [], [], 0
    for number, words in rest[1:]:
        for word in words:
            literal = value(word) if NUMBER.match(word) else None
            if literal is None or abs(literal) > header[0]:
                raise Refused(f"cnf 2 {number}")
            if literal:
                clause.append(literal)
                last = number
            else:
                clauses.append(clause)
                clause = []
    if clause:
        raise Refused(f"cnf 4 {last}")
    if len(clauses) != header[1]:
        raise Refused("cnf 3 0")
    return header[0], clauses


def numbers_up_to_end(words, at, form, line):
    """The numbers of the form from a place up to the word `0`, and the place behind it."""
    found = []
    for place in range(at, len(words)):
        if words[place] == b"0":
            return found, place + 1
        if not form.match(words[place]) or value(words[place]) == 0:
            raise Refused(f"lrat 1 {line}")
        found.append(value(words[place]))
    raise Refused(f"lrat 2 {line}")


def read_step(words, line):
    """A step: its id, its literals and hints, or None and the ids that are deleted."""
    if not ID.match(words[0]):
        raise Refused(f"lrat 1 {line}")
    if len(words) > 1 and words[1] == b"d":
        literals, (numbers, end) = None, numbers_up_to_end(words, 2, ID, line)
    else:
        literals, at = numbers_up_to_end(words, 1, SHORT, line)
        numbers, end = numbers_up_to_end(words, at, SHORT, line)
    if end < len(words):
        raise Refused(f"lrat 1 {line}")
    return int(words[0]), literals, numbers


def read_lrat(text):
    return [read_step(words, number) for number, words in lines_of(text) if words]


def check_hints(held, identity, literals, hints):
    """Unit propagation along the hints, from all literals of the clause false to a clause that is false."""
    if any(hint < 0 for hint in hints):
        raise Refused(f"step 5 {identity} 0")
    false = set(literals)
    for hint in hints:
        if hint not in held:
            raise Refused(f"step 1 {identity} {hint}")
        if any(-literal in false for literal in held[hint]):
            continue
        still_open = {literal for literal in held[hint] if literal not in false}
        if not still_open:
            return
        if len(still_open) > 1:
            raise Refused(f"step 2 {identity} {hint}")
        false.add(-still_open.pop())
    raise Refused(f"step 3 {identity} 0")


def verify(clauses, steps):
    """The id of the empty clause that the steps add."""
    held = {number: clause for number, clause in enumerate(clauses, start=1)}
    greatest = len(clauses)
    for identity, literals, numbers in steps:
        if literals is None:
            for number in numbers:
                if number not in held:
                    raise Refused(f"step 1 {identity} {number}")
                del held[number]
            continue
        if identity <= greatest:
            raise Refused(f"step 4 {identity} 0")
        check_hints(held, identity, literals, numbers)
        if not literals:
            return identity
        held[identity] = literals
        greatest = identity
    raise Refused("step 6 0 0")


def answer(clause_file, proof):
    """The line and the code of `rvf lrat` on the bytes of both files."""
    try:
        clauses = read_dimacs(clause_file)[1]
        return f"refuted {verify(clauses, read_lrat(proof))}", 0
    except Refused as refused:
        return f"refused {refused}", 10
