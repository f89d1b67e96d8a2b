#!/usr/bin/env python3
"""Holds the documents to the sources: README.md, docs/*.md, and what they name.

    tools/check-docs.py            prints what isn't there, and ends with 1 where something isn't
    tools/check-docs.py --write    makes the table of crates in docs/MAP.md anew

What is looked at, of words in backquotes (two on each side where the words have one inside):

- `crate/specs/File.antt: name, name`: the definitions stand in that file. `crate/src/file.rt: name, name`: the
  functions, types or constants do. `crate/stdin: text`: a line of it has the text. Other `crate/file`: it is there.
- `crate::function: clause, clause`, or with a type in front of the function: it is public, and has the clauses
  `ensures NAME {..}`; in docs/PROVED.md one without names has a clause all the same. `crate::Type: clause`: the type
  has the ghost fields.
- names of files, and names that begin as those of crates do.

Beside these: links, names of files under docs/, tools/, examples/ and crates/, commands, the example of README.md and
the number of its lines, that docs/MAP.md names each crate of crates.txt, and has the table that `--write` makes.
Nothing is written without `--write`.
"""
import os
import re
import subprocess
import sys
import tempfile

ROOT = os.path.dirname(os.path.dirname(os.path.abspath(__file__)))
BEGIN = "<!-- The crates, by tools/check-docs.py --write -->"
END = "<!-- The end of the crates -->"
MOST_LINES = 200
GROUPS = "fv vl wn tr vcd rv ck bm bb aiger cnf lrat sat rvf".split()
# This page has figures of crates under names that they had when they were measured.
OLD_NAMES = ["docs/BENCHMARKS.md"]

DEFINED = re.compile(r"^\s*(?:(?:abbrev|unfoldable|opaque|pub|instance)\s+)*(\S+)\s+:(?:\s|$)")
RECORD = re.compile(r"^\s*(?:(?:abbrev|unfoldable|opaque|pub)\s+)*(?:data|record)\s+(\S+)")
FUNCTION = re.compile(r"^(\s*)(pub(?:\([a-z]+\))?\s+)?(?:(?:ghost|const|unsafe)\s+)*fn\s+(\w+)")
TYPE = re.compile(r"^(pub\s+)?(?:ghost\s+)?(struct|enum|trait|type)\s+(\w+)")
CONSTANT = re.compile(r"^\s*(?:pub(?:\([a-z]+\))?\s+)?const\s+(\w+)\s*:")
IMPLEMENTED = re.compile(r"^(?:unsafe\s+)?impl\b(?:<[^>]*>)?\s*(.*?)\s*\{?\s*$")
CLAUSE = re.compile(r"^\s+ensures\s*(\w*)\s*(?:\{|$)")
FIELD = re.compile(r"^\s+(?:pub\s+)?ghost\s+(\w+)\s*:")

faults = []


def fault(page, line, text):
    faults.append(f"{page}:{line}: {text}")


def lines_of(path):
    with open(os.path.join(ROOT, path), encoding="utf-8") as file:
        return file.read().split("\n")


def is_there(path):
    return os.path.exists(os.path.join(ROOT, path))


# ---- the sources

def crates():
    """The crates of crates.txt, in its order."""
    names = [line.split("#")[0].split(":")[0].split() for line in lines_of("crates.txt")]
    return [name[0] for name in names if name]


def files_below(folder, ending):
    """Paths of files, in order, without what was built."""
    found = []
    for place, folders, names in os.walk(os.path.join(ROOT, folder)):
        folders[:] = sorted(name for name in folders if name not in ("out", "__pycache__"))
        found += [os.path.relpath(os.path.join(place, name), ROOT) for name in sorted(names) if name.endswith(ending)]
    return found


def definitions(path):
    """The names that a file of definitions gives, those of fields too."""
    found = set()
    for line in lines_of(path):
        name = RECORD.match(line) or DEFINED.match(line)
        if name and not line.lstrip().startswith("--"):
            found.add(name.group(1))
    return found


class Item:
    """A function or a type, with the names of its clauses."""

    def __init__(self, name, owner, public):
        self.name, self.owner, self.public, self.clauses = name, owner, public, []


def owner_of(text):
    """The type that an `impl` is of."""
    text = re.sub(r"<[^<>]*>", "", re.sub(r"<[^<>]*>", "", text)).split(" where ")[0]
    return text.split(" for ")[-1].strip(), " for " in text


def items_of(path):
    """The functions, types and constants of a file of code."""
    found, owner, of_trait, now = [], "", False, None
    for line in lines_of(path):
        function, kind, constant = FUNCTION.match(line), TYPE.match(line), CONSTANT.match(line)
        if line.startswith("}"):
            owner, of_trait = "", False
        if line.startswith("impl") or line.startswith("unsafe impl"):
            owner, of_trait = owner_of(IMPLEMENTED.match(line).group(1))
        elif kind:
            now = Item(kind.group(3), "", bool(kind.group(1)))
            found.append(now)
            if kind.group(2) == "trait":
                owner, of_trait = kind.group(3), True
        elif function:
            public = (function.group(2) or "").strip() == "pub" or of_trait
            now = Item(function.group(3), owner if function.group(1) else "", public)
            found.append(now)
        elif constant:
            found.append(Item(constant.group(1), owner, True))
        elif now:
            clause = CLAUSE.match(line) or FIELD.match(line)
            if clause:
                now.clauses.append(clause.group(1))
    return found


class Sources:
    """What the sources have, read once for each crate and file."""

    def __init__(self):
        self.crates = crates()
        self.known = set(self.crates)
        self.read = {}

    def once(self, key, make):
        if key not in self.read:
            self.read[key] = make()
        return self.read[key]

    def defined(self, path):
        return self.once(path, lambda: definitions(path))

    def coded(self, path):
        return self.once(path, lambda: items_of(path))

    def of_crate(self, crate):
        return self.once(crate, lambda: [
            item for path in files_below(f"crates/{crate}/src", ".rt") for item in items_of(path)])

    def file_names(self):
        return self.once("files", lambda: {
            os.path.basename(path) for ending in (".rt", ".antt") for path in files_below("crates", ending)})

    def words(self):
        """The names of all functions."""
        return self.once("words", lambda: {item.name for crate in self.crates for item in self.of_crate(crate)})

    def elsewhere(self, name):
        """Other crates that have the public function or type."""
        return [crate for crate in self.crates if any(
            item.public and item.name == name for item in self.of_crate(crate))]


# ---- the table of crates

def sentence_of(crate):
    """What the crate is, by the first sentence of its first file."""
    for name in ("lib.rt", "main.rt"):
        path = f"crates/{crate}/src/{name}"
        if is_there(path):
            words = []
            for line in lines_of(path):
                if not line.startswith("//!") or not line[3:].strip():
                    break
                words.append(line[3:].strip())
            text = " ".join(words)
            end = re.search(r"[.](\s|$)", text)
            return (text[:end.start() + 1] if end else text).replace("|", "\\|")
    return ""


def believed(crate):
    """The crate's files of definitions that a reader of a verdict believes."""
    found = []
    for path in files_below(f"crates/{crate}/specs", ".antt"):
        name = os.path.basename(path)[:-len(".antt")]
        if "/declared/" not in path and name != "Lib" and lines_of(path)[0].startswith("-- Meaning:"):
            found.append(name)
    return " ".join(f"`{name}`" for name in found)


def table():
    rows = ["| crate | what it is | files of `specs/` that say what is meant |", "|---|---|---|"]
    return rows + [f"| `{crate}` | {sentence_of(crate)} | {believed(crate)} |" for crate in crates()]


def is_table_place(lines):
    return lines.count(BEGIN) == 1 and lines.count(END) == 1 and lines.index(BEGIN) < lines.index(END)


def write():
    lines = lines_of("docs/MAP.md")
    if not is_table_place(lines):
        sys.exit("docs/MAP.md has no place for the table of crates")
    lines[lines.index(BEGIN) + 1:lines.index(END)] = table()
    with open(os.path.join(ROOT, "docs/MAP.md"), "w", encoding="utf-8") as file:
        file.write("\n".join(lines))


def check_map(sources):
    page = "docs/MAP.md"
    lines = lines_of(page)
    if not is_table_place(lines):
        fault(page, 1, "there is no place for the table of crates")
        return
    begin, end = lines.index(BEGIN), lines.index(END)
    there, made = lines[begin + 1:end], table()
    if there != made:
        wrong = next((i for i, row in enumerate(there) if i >= len(made) or row != made[i]), len(there))
        fault(page, begin + 2 + wrong, "the table of crates isn't what the sources say: tools/check-docs.py --write")
    named = set(re.findall(r"`([a-z0-9_]+)`", "\n".join(lines[:begin] + lines[end:])))
    for crate in sources.crates:
        if crate not in named:
            fault(page, 1, f"no row but that of the table of crates names `{crate}`")


# ---- words in backquotes

def check_file(sources, page, line, path, names):
    """`crate/specs/File.antt: names`, `crate/src/file.rt: names`, `crate/file: text`."""
    path = "crates/" + path
    if not is_there(path):
        fault(page, line, f"there is no file {path}")
    elif names is None:
        return
    elif path.endswith(".antt") or path.endswith(".rt"):
        there = sources.defined(path) if path.endswith(".antt") else {item.name for item in sources.coded(path)}
        for name in re.split(r",\s*", names):
            if name not in there:
                fault(page, line, f"{path} has no {name}")
    elif not any(names in text for text in lines_of(path)):
        others = [crate for crate in sources.crates if is_there(f"crates/{crate}/stdin")
                  and any(names in text for text in lines_of(f"crates/{crate}/stdin"))]
        fault(page, line, f"{path} has no line with {names!r}" + (f", but {', '.join(others)} has" if others else ""))


def check_clauses(sources, page, line, crate, path, clauses):
    """`crate::function: clauses`, `crate::Type::function: clauses`, `crate::Type: clauses`."""
    parts = path.split("::")
    name, owner = parts[-1], parts[-2] if len(parts) > 1 else None
    found = [item for item in sources.of_crate(crate)
             if item.public and item.name == name and (owner is None or item.owner == owner)]
    if not found:
        others = sources.elsewhere(name)
        fault(page, line, f"{crate} has no public {path}" + (f", but {', '.join(others)} has" if others else ""))
        return
    there = {clause for item in found for clause in item.clauses}
    for clause in re.split(r",\s*", clauses) if clauses else []:
        if clause not in there:
            fault(page, line, f"{crate}::{path} has no clause {clause}")
    if not clauses and page == "docs/PROVED.md" and not there and not re.match(r"[A-Z]", name):
        fault(page, line, f"{crate}::{path} promises nothing")


def check_words(sources, page):
    crate_word = re.compile(r"(" + "|".join(GROUPS) + r")_[a-z0-9_]+|base_tests|[a-z]+_(cases|answers)")
    for number, line in enumerate(lines_of(page), 1):
        double = re.findall(r"``(.+?)``", line)
        for word in double + re.findall(r"`([^`]+)`", re.sub(r"``.+?``", "", line)):
            file = re.fullmatch(r"([a-z0-9_]+)/([\w./-]+?)(?:: (.+))?", word)
            call = re.fullmatch(r"([a-z0-9_]+)::([\w:]+?)(?:: ([\w, ]+))?", word)
            if file and file.group(1) in sources.known:
                check_file(sources, page, number, f"{file.group(1)}/{file.group(2)}", file.group(3))
            elif call and call.group(1) in sources.known:
                check_clauses(sources, page, number, call.group(1), call.group(2), call.group(3))
            elif re.fullmatch(r"[\w-]+\.(md|py|txt)", word):
                if not any(is_there(folder + word) for folder in ("", "docs/", "tools/")):
                    fault(page, number, f"there is no file {word}")
            elif re.fullmatch(r"[\w-]+\.(rt|antt)", word):
                if word not in sources.file_names():
                    fault(page, number, f"there is no file {word}")
            elif "::" in word and (crate_word.fullmatch(word.split("::")[0]) or word.split("::")[0] in sources.known):
                fault(page, number, f"{word} names no crate's function and clauses")
            elif crate_word.fullmatch(word) and page not in OLD_NAMES:
                is_group = word.endswith("_") and any(crate.startswith(word) for crate in sources.crates)
                if not is_group and word not in sources.known and word not in sources.words():
                    fault(page, number, f"there is no crate {word}")


def headings(page):
    """The headings of a page, as links within it name them."""
    titles = [line.lstrip("#").strip().lower() for line in lines_of(page) if line.startswith("#")]
    return {re.sub(r"[^\w -]", "", title).replace(" ", "-") for title in titles}


def check_paths(page):
    """Links, and names of files wherever they stand."""
    folder, there = os.path.dirname(page), headings(page)
    for number, line in enumerate(lines_of(page), 1):
        for target in re.findall(r"\]\(#([^)\s]+)\)", line):
            if target not in there:
                fault(page, number, f"there is no heading {target}")
        for target in re.findall(r"\]\(([^)#\s]+)", line):
            if "://" not in target and not is_there(os.path.join(folder, target)):
                fault(page, number, f"there is no file {target}")
        for path in re.findall(r"(?<![\w/.@-])((?:docs|tools|examples|crates|\.ci)/[\w./-]*\w)", line):
            if not is_there(path):
                fault(page, number, f"there is no file {path}")


# ---- README.md

def usages():
    """What may stand behind `rvf`, by the line that the program prints."""
    text = "\n".join(lines_of("crates/rvf_core/specs/Run.antt"))
    options = re.search(r'(?m)^options_text = codes "(.*?)"$', text).group(1)
    pieces = re.search(r"(?m)^usage_line =\n((?: .*\n)+)", text).group(1)
    said = re.findall(r'codes "(.*?)"|\boptions_text\b', pieces)
    line = "".join(words or options for words in said).removeprefix("usage: rvf ").removesuffix("\\n")
    return {usage.split()[0]: usage for usage in line.split(" | ")}


def check_command(page, number, words):
    """A call of the program: the subcommand and its options are those of the usage line."""
    usage = usages().get(words[1]) if len(words) > 1 else None
    if usage is None:
        fault(page, number, f"{' '.join(words)} is no command")
        return
    for word in words[2:]:
        if word.startswith("--") and f"[{word} " not in usage:
            fault(page, number, f"{words[1]} has no option {word}")


def check_commands(page):
    for number, line in enumerate(lines_of(page), 1):
        if line.startswith("    ") and line.split():
            words = line.split()
            if words[0] in ("./rvf", "rvf") and "[" not in line:
                check_command(page, number, words)
            elif words[0] == "rvf" and line.strip()[4:] not in usages().values():
                fault(page, number, f"{line.strip()} isn't what the usage line says")
            elif words[0] == "rt" and line.strip() not in lines_of(".ci/run"):
                fault(page, number, f".ci/run has no line {line.strip()}")


def check_readme():
    lines = lines_of("README.md")
    if len(lines) - 1 > MOST_LINES:
        fault("README.md", MOST_LINES + 1, f"there are more than {MOST_LINES} lines")
    text = "\n".join(lines)
    for command in ("    ./rvf run examples/", "    rt ci"):
        if command not in text:
            fault("README.md", 1, f"no command begins with {command.strip()}")


def check_example():
    """README.md shows what the built program, where there is one, prints of the shipped example."""
    program = os.path.join(ROOT, "crates/rvf/out/rvf")
    if not os.path.isfile(program):
        return
    with tempfile.TemporaryDirectory() as folder:
        words = [program, "run", "examples/quiet/checks.cfg", folder, "--basedir", "examples/quiet"]
        ended = subprocess.run(words, cwd=ROOT, capture_output=True, text=True, timeout=60)
    printed = "\n".join("    " + line for line in ended.stdout.splitlines())
    if ended.returncode != 0 or not printed or printed not in "\n".join(lines_of("README.md")):
        fault("README.md", 1, "the lines of the example aren't those that the built program prints")


def main():
    if sys.argv[1:] == ["--write"]:
        write()
        return
    if sys.argv[1:]:
        sys.exit(__doc__)
    sources = Sources()
    for page in ["README.md"] + files_below("docs", ".md"):
        check_words(sources, page)
        check_paths(page)
        check_commands(page)
    check_map(sources)
    check_readme()
    check_example()
    for text in faults:
        print(text)
    sys.exit(1 if faults else 0)


main()
