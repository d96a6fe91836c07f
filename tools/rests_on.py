#!/usr/bin/env python3
"""What a clause rests on, by the imports of the specs: files, and definitions.

    rests_on.py                 the files of specs on which the clauses of the top call rest
    rests_on.py FILE..          those of these files, specs (.antt) or code (.rt), each named from the top
    rests_on.py --list [FILE..] names each file
    rests_on.py --words         the definitions that the clauses of the top call name, and those that these name, and so on

A definition means what it says by the words that it names, which its file defines or imports, and so on down to the
words of std. So this is what a reader has to read to know what a clause says, and no more. Types of code whose variants
or fields a definition names are counted by their source files.
"""
import functools
import glob
import os
import re
import sys
from collections import Counter

TOP = os.path.dirname(os.path.dirname(os.path.abspath(__file__)))
CRATES = os.path.join(TOP, "crates")
TOP_CALL = "pub fn graphd"
USE = re.compile(r"^\s*(?:unfoldable +)?(?:pub +)?(?:ghost +)?use +Rattle\.(gd_\w+)\.(specs[\w.]*)"
                 r"(?:\.?\{([^}]*)\})?(?: as (\w+))?", re.M)
# a definition's first line: its indentation, what kind it is of, and its name
DEFINED = re.compile(r"( *)(?:(?:abbrev |unfoldable )*pub (data |record )?([^\s:({]+)"
                     r"|(?:abbrev |unfoldable )+(data |record )?([^\s:({]+)(?= [:({])"
                     r"|(data |record )([^\s:({]+)|([^\s:({]+)(?= :))")
WORD = re.compile(r"[^\s()\[\]{},;λ.]+(?:\.[^\s()\[\]{},;λ.]+)*")


def first():
    """The source file of the top call."""
    for file in sorted(glob.glob(os.path.join(CRATES, "gd_top", "src", "*.rt"))):
        with open(file, encoding="utf-8") as text:
            if TOP_CALL in text.read():
                return file
    sys.exit("rests_on.py: no file of gd_top has `%s`" % TOP_CALL)


def declared(crate, words):
    """The source file of a type of code."""
    modules = []
    for word in words:
        if word[0].isupper():
            break
        modules.append(word)
    file = os.path.join(CRATES, crate, "src", *modules) + ".rt"
    return file if modules and os.path.exists(file) else os.path.join(CRATES, crate, "src", "lib.rt")


def named(crate, path):
    """The file that a `use` line names; behind a module may stand a name of it."""
    words = [word for word in path.split(".") if word]
    if words[1:2] == ["declared"]:
        return declared(crate, words[2:])
    while words:
        file = os.path.join(CRATES, crate, *words) + ".antt"
        if os.path.exists(file):
            return file
        words.pop()
    raise SystemExit(f"no file for Rattle.{crate}.{path}")


@functools.lru_cache(None)
def text_of(file):
    with open(file, encoding="utf-8") as text:
        return text.read()


# ---- files


def imports(file):
    return [named(crate, path) for crate, path, _names, _alias in USE.findall(text_of(file))]


def rests_on(files):
    """All files that these rest on: specs by what they import, types of code by themselves."""
    seen, left = set(), list(files)
    while left:
        file = left.pop()
        if file not in seen:
            seen.add(file)
            if file.endswith(".antt"):
                left += imports(file)
    return seen


# ---- definitions


def parts_of(lines, start, indent):
    """The cases of a type, or the parts of a record, that begins at a line."""
    names = []
    for line in lines[start + 1:]:
        if line.strip().startswith("--"):
            continue
        if not line.strip() or len(line) - len(line.lstrip()) <= indent:
            break
        found = re.match(r" {%d}(?:pub )?([\w' -]+?) :" % (indent + 2), line)
        if found:
            names.extend(found.group(1).split())
    return names


class Specs:
    """A file of specs, or of code: the words that it brings in, and those that it defines, each with its text."""

    def __init__(self, file):
        self.file, self.brought, self.modules, self.bodies = file, {}, {}, {}
        self.cases, self.parts = {}, {}
        for crate, path, names, alias in USE.findall(text_of(file)):
            if names:
                for name in filter(None, (name.strip() for name in names.split(","))):
                    words = name.split(" as ")
                    self.brought[words[-1]] = (named(crate, path), words[0])
            else:
                self.modules[alias or path.split(".")[-1]] = named(crate, path)
        if file.endswith(".antt"):
            self.define(text_of(file).split("\n"))
        self.signs = {name.replace("◌", ""): name for name in [*self.brought, *self.bodies] if "◌" in name}

    def define(self, lines):
        """Cuts the file into its definitions."""
        current, inside = None, None
        for number, line in enumerate(lines):
            if not line.strip() or line.lstrip().startswith(("--", "use ", "pub use ", "pub mod ")):
                continue
            indent = len(line) - len(line.lstrip())
            if inside is not None and indent <= inside:
                inside = None
            found = DEFINED.match(line) if inside is None else None
            if found and indent <= 2:
                _, *groups = found.groups()
                kind = groups[0] or groups[2] or groups[4]
                current = groups[1] or groups[3] or groups[5] or groups[6]
                self.bodies.setdefault(current, [])
                if kind:
                    inside = indent
                    owners = self.cases if kind == "data " else self.parts
                    owners.update({part: current for part in parts_of(lines, number, indent)})
            if current:
                self.bodies[current].append(line)

    def find(self, word):
        """Where a word is defined: a file and a name; None where it is a word of std, a variable or a part."""
        word = self.signs.get(word, word)
        front, *behind = word.split(".")
        if front in self.bodies:
            return self.file, front
        if front in self.cases:
            return self.file, self.cases[front]
        if front in self.brought:
            file, name = self.brought[front]
            return specs(file).given(name) if file.endswith(".antt") else None
        if front in self.modules and behind and self.modules[front].endswith(".antt"):
            return specs(self.modules[front]).given(behind[0])
        return None

    def given(self, name):
        """Where a name of this file that another one brings in is defined: it may be a part of a record too."""
        return (self.file, self.parts[name]) if name in self.parts and name not in self.bodies else self.find(name)

    def found_in(self, text):
        """The definitions that a text of this file names."""
        return set(filter(None, map(self.find, WORD.findall(text))))


@functools.lru_cache(None)
def specs(file):
    return Specs(file)


def clauses():
    """The clauses of the top call, without comments."""
    text = text_of(first())
    text = text[text.index(TOP_CALL):]
    return "\n".join(line for line in text[:text.index("\n{\n")].split("\n") if not line.lstrip().startswith("//"))


@functools.lru_cache(None)
def words():
    """The definitions on which the clauses of the top call rest, each a file and a name."""
    seen, left = set(), list(specs(first()).found_in(clauses()))
    while left:
        file, name = found = left.pop()
        if found not in seen:
            seen.add(found)
            left += specs(file).found_in("\n".join(specs(file).bodies[name]))
    return seen


# ---- the command


def print_words():
    for file, name in sorted(words()):
        print(os.path.relpath(file, CRATES), name.replace("◌", ""))


def main(arguments):
    if "--help" in arguments or "-h" in arguments:
        print(__doc__.strip())
        return 0
    if arguments == ["--words"]:
        print_words()
        return 0
    listed = "--list" in arguments
    start = []
    for name in [word for word in arguments if word != "--list"] or [first()]:
        file = os.path.join(TOP, name)
        if not os.path.isfile(file):
            print("rests_on.py: %s is no file; rests_on.py --help shows the words" % name, file=sys.stderr)
            return 2
        start += imports(file) if file.endswith(".rt") else [file]
    files = rests_on(start)
    found = sorted(file for file in files if file.endswith(".antt"))
    count = Counter(os.path.relpath(file, CRATES).split(os.sep)[0] for file in found)
    for crate, many in sorted(count.items()):
        print(f"{crate} {many}")
        for file in found if listed else []:
            if os.path.relpath(file, CRATES).startswith(crate + os.sep):
                print("    " + os.path.relpath(file, TOP))
    print(f"{len(found)} files of specs, and {len(files) - len(found)} source files of types")
    return 0


if __name__ == "__main__":
    sys.exit(main(sys.argv[1:]))
