#!/usr/bin/env python3
"""Which definitions a reader needs who wants to know what a line `pass NAME` means. Not part of the gate.

Usage: tools/pass-reading.py
       Prints, of each file of specs/ that the record `HasPassed` of rvf_core leads to, how many lines of it are
       needed, comments of the definitions included, and the sums. docs/PASS.md lists these files. Exits with 1 where
       its list has a file that isn't needed, or lacks one that is, and with 0 else.
       tools/pass-reading.py CRATE MODULE NAME
       Prints the same of another definition, e.g. rvf_core Run Answers, and reads no list.

Names are followed through imports, passed-on imports and aliases of modules. Types of src/ are counted and not
followed: what they hold stands in the code.
"""
import re
import sys
from pathlib import Path

TOP = Path(__file__).resolve().parent.parent
CRATES = TOP / "crates"
START = ("rvf_core", "Pass", "HasPassed")
LIST = TOP / "docs" / "PASS.md"

IMPORT = re.compile(r"^(?:pub )?use Rattle\.(\S+?)(?:\.\{(.*)\})?(?: as (\S+))?\s*$")
HEAD = re.compile(r"^(?:abbrev |unfoldable |opaque )?(?:pub )?(?:abbrev |unfoldable )?(data |record )?(\S+)(.*)$")
NO_HEAD = re.compile(r"^(mutual|module|ruleset|where|infix|syntax|open|pub mod|pub module|pub ruleset)\b")
MARKED = ("abbrev ", "unfoldable ", "opaque ", "pub ", "data ", "record ")


class Module:
    """A file of specs/: its definitions by name, each with its lines, and what it imports."""

    def __init__(self, crate, name, path):
        self.crate, self.name, self.path = crate, name, path
        self.lines = path.read_text().split("\n")
        self.imports, self.aliases, self.definitions = {}, {}, {}
        self.shared = ""
        self.read_imports()
        self.read_definitions()

    def read_imports(self):
        """An import may go over several lines, up to its closing brace."""
        text = ""
        for line in self.lines:
            if not text and not re.match(r"^(pub )?use ", line):
                continue
            text += line.strip() if text else line
            if "{" in text and "}" not in text:
                continue
            self.read_import(re.sub(r",\s*}", "}", text))
            text = ""

    def read_import(self, text):
        found = IMPORT.match(text)
        if not found:
            return
        path, names, alias = found.groups()
        if names is None:
            self.aliases[alias or path.split(".")[-1]] = path
            return
        for name in filter(None, (part.strip() for part in names.split(","))):
            there, _, here = name.partition(" as ")
            self.imports[here.strip() or there.strip()] = (path, there.strip())

    def heads(self):
        """The lines that begin definitions. What is indented deeper than a record or a type is its body."""
        body, within = None, False
        for number, line in enumerate(self.lines):
            text = line.strip()
            if re.match(r"^(pub )?use ", text):
                within = "{" in text and "}" not in text
                continue
            if within:
                within = "}" not in text
                continue
            if not text or text.startswith("--"):
                continue
            depth = len(line) - len(line.lstrip())
            if body is not None and depth > body:
                continue
            body = None
            if NO_HEAD.match(text):
                self.shared += " " + text
                continue
            if not text.startswith(MARKED) and not re.match(r"^\S+ :\s", text):
                continue
            if re.match(r"record (\S+ )?[{(]", text):
                continue  # a value, not the type of one
            kind, name, _ = HEAD.match(text).groups()
            if kind:
                body = depth
            yield number, name

    def read_definitions(self):
        heads = list(self.heads())
        for place, (number, name) in enumerate(heads):
            first = number
            while first > 0 and self.is_comment(first - 1):
                first -= 1
            last = heads[place + 1][0] if place + 1 < len(heads) else len(self.lines)
            while last > number + 1 and (self.is_comment(last - 1) or not self.lines[last - 1].strip()):
                last -= 1
            self.definitions[name] = [i for i in range(first, last) if self.lines[i].strip()]

    def is_comment(self, number):
        text = self.lines[number].strip()
        return text.startswith("--") and not text.startswith("-- ----")

    def text_of(self, name):
        lines = (re.sub(r"--.*", "", self.lines[i]) for i in self.definitions[name])
        return " ".join(lines) + self.shared

    def owner_of(self, name):
        """The type or record that has the constructor or the field."""
        for owner in self.definitions:
            if re.search(r"(?<!\S)" + re.escape(name) + r"\s*:", self.text_of(owner)):
                return owner
        return None


class Reading:
    """What is read so far, and what is still to be looked at."""

    def __init__(self):
        self.modules, self.needed, self.types, self.lost = {}, set(), set(), set()

    def module(self, crate, name):
        key = (crate, name)
        if key not in self.modules:
            path = CRATES / crate / "specs" / (name.replace(".", "/") + ".antt")
            self.modules[key] = Module(crate, name, path) if path.exists() else self.passed_on(crate, name)
        return self.modules[key]

    def passed_on(self, crate, name):
        """A module of another crate that this one passes on under its own name."""
        library = CRATES / crate / "specs" / "Lib.antt"
        for line in library.read_text().split("\n") if library.exists() else []:
            found = re.match(r"^pub use Rattle\.(\w+)\.specs\.(\S+)$", line)
            if found and found.group(2) == name:
                return self.module(found.group(1), name)
        return None

    def place_of(self, path, name):
        """The module and the definition that a path with a name means: none where they aren't of specs/."""
        parts = path.split(".")
        if not (CRATES / parts[0]).is_dir():
            return None
        if "declared" in parts or "formers" in parts:
            self.types.add((parts[0], ".".join(parts[2:])))
            return None
        module = self.module(parts[0], ".".join(parts[2:]))
        if module is None and len(parts) > 3:
            module, name = self.module(parts[0], ".".join(parts[2:-1])), parts[-1]
        if module is None:
            self.lost.add((path, name))
            return None
        if name in module.definitions:
            return module, name
        if name in module.imports:
            return self.place_of(*module.imports[name])
        owner = module.owner_of(name)
        if owner is None:
            self.lost.add((path, name))
            return None
        return module, owner

    def cited_by(self, module, name):
        """The paths and names that a definition cites, or the names of its own module."""
        text = module.text_of(name)
        words = set(re.findall(r"[^\s(){},;\[\]]+", text))
        for word in sorted(words):
            for part in {word, *word.split(".")}:
                if part in module.definitions and part != name:
                    yield module, part
                elif part in module.imports:
                    yield module.imports[part]
            alias, _, member = word.partition(".")
            if alias in module.aliases and member:
                yield module.aliases[alias], member.split(".")[0]
        for word in [*module.imports, *module.definitions]:
            parts = [part for part in word.split("◌") if part]
            if "◌" in word and word != name and all(part in text for part in parts):
                yield module.imports[word] if word in module.imports else (module, word)

    def follow(self, crate, module_name, name):
        waiting = [self.place_of(f"{crate}.specs.{module_name}", name)]
        while waiting:
            place = waiting.pop()
            if place is None or (place[0].crate, place[0].name, place[1]) in self.needed:
                continue
            self.needed.add((place[0].crate, place[0].name, place[1]))
            for where, what in self.cited_by(*place):
                waiting.append((where, what) if isinstance(where, Module) else self.place_of(where, what))

    def lines_by_file(self):
        files = {}
        for crate, name, definition in self.needed:
            module = self.module(crate, name)
            key = str(module.path.relative_to(CRATES))
            files.setdefault(key, set()).update(module.definitions[definition])
        return {key: len(lines) for key, lines in files.items()}


def listed():
    """The files that the page lists, in its order."""
    return re.findall(r"`(\w+/specs/[\w/]+\.antt)`", LIST.read_text())


def main(words):
    start = tuple(words) if words else START
    reading = Reading()
    reading.follow(*start)
    files = reading.lines_by_file()
    for name, count in sorted(files.items(), key=lambda item: (-item[1], item[0])):
        print(f"{count:5} {name}")
    print(
        f"{len(files)} files, {len(reading.needed)} definitions, {sum(files.values())} lines; "
        f"{len(reading.types)} types of src/; not found: {len(reading.lost)}"
    )
    if words:
        return 0
    page = listed()
    for name in sorted(set(page) - set(files)):
        print(f"listed, and not needed: {name}")
    for name in sorted(set(files) - set(page)):
        print(f"needed, and not listed: {name}")
    for name in sorted({name for name in page if page.count(name) > 1}):
        print(f"listed twice: {name}")
    return 0 if sorted(page) == sorted(files) else 1


if __name__ == "__main__":
    sys.exit(main(sys.argv[1:]))
