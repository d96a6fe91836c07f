#!/usr/bin/env python3
"""Worked rows: texts of lines and replies, made into lemmas that the definitions compute, and into cases that the
program crates/gd_rows runs.

    row.py [--check] [TEXT..]   writes the lemmas of each text, and the cases; without TEXT the lemmas of every text in
                                rows/. --check writes nothing, and fails where a file is not what its text gives
    row.py --lines TEXT ROW     prints the lines of a row, as a program reads them
    row.py --replies TEXT ROW   prints its replies, as a program writes them
    row.py --why TEXT ROW       prints a proof file whose refusal shows what the definitions compute in place of
                                the first wrong reply of a row

README.md, beside this program, says what stands in a text.
"""
import argparse
import os
import re
import sys

from frozen import offset, places
from store_file import Damaged, NotStore, opened

TOP = os.path.dirname(os.path.dirname(os.path.abspath(__file__)))
TEXTS = os.path.join(TOP, "rows")
CASES = os.path.join(TEXTS, "cases")
PROOFS = os.path.join(TOP, "crates", "gd_runs", "proofs")
PROGRAM = os.path.join(TOP, "crates", "gd_rows")


# In place of what a file holds afterwards: what opening leaves of it, by the page of the format.
OPENED = "opened"


class BadText(Exception):
    """A text that is not of the form that README.md describes."""


class Row:
    """One run on a fresh store: its lines in order, each with its reply."""

    def __init__(self, name):
        self.name = name
        self.comment = []
        self.pairs = []


def bytes_of(mark, rest):
    """The bytes behind a mark: UTF-8 text behind `> ` and `< `, hexadecimal digits behind `>x ` and `<x `."""
    return bytes.fromhex(rest) if mark.endswith("x") else rest.encode()


def rows_of(path):
    """The header comment of a text, and its rows."""
    header, rows, waiting = [], [], None
    with open(path, encoding="utf-8", newline="\n") as text:
        for number, line in enumerate(text, 1):
            line = line.rstrip("\n")

            def refuse(why):
                raise BadText("%s:%d: %s" % (path, number, why))

            mark, _, rest = line.partition(" ")
            if line == "":
                continue
            if mark == "#":
                if rows and rows[-1].pairs:
                    refuse("a comment stands behind the first line of its row")
                (rows[-1].comment if rows else header).append(rest)
            elif mark == "row":
                if waiting is not None:
                    refuse("the line before has no reply")
                if not re.fullmatch("[a-z][a-z0-9_]*", rest):
                    refuse("a row's name is of small letters, digits and `_`")
                if any(row.name == rest for row in rows):
                    refuse("the name stands twice")
                rows.append(Row(rest))
            elif mark in (">", ">x"):
                if not rows or waiting is not None:
                    refuse("a line stands behind `row NAME`, or behind the reply to the line before")
                waiting = bytes_of(mark, rest)
            elif mark in ("<", "<x"):
                if waiting is None:
                    refuse("a reply stands behind its line")
                rows[-1].pairs.append((waiting, bytes_of(mark, rest)))
                waiting = None
            else:
                refuse("what begins with neither `#`, `row`, `>` nor `<`")
    if waiting is not None:
        raise BadText("%s: the last line has no reply" % path)
    if not header or not rows or not all(row.pairs for row in rows):
        raise BadText("%s: there is no header comment, no row, or a row without lines" % path)
    return header, rows


def in_rounds(lines, mark=""):
    """Lines behind a mark, with a blank one before each line of another session than the one before: sessions of one round
    run side by side, and a row is one line after another."""
    out, before = [], None
    for line in lines:
        asked = re.match(mark + r'\{"sid":(\d+),"(?:read|write)"', line)
        if asked and before not in (None, asked.group(1)):
            out.append(mark)
        if asked or line == mark:
            before = asked.group(1) if asked else None
        out.append(line)
    return out


def merged(lines):
    """Lines of a table, counted from 0: those that say the same, one behind the other, are one line."""
    out, first = [], 0
    for number, line in enumerate(lines):
        if number + 1 == len(lines) or lines[number + 1] != line:
            out.append("at %d-%d %s" % (first, number, line))
            first = number + 1
    return out


def in_common(left, right):
    """How many bytes two texts begin with in common."""
    return next((at for at, pair in enumerate(zip(left, right)) if pair[0] != pair[1]), min(len(left), len(right)))


def opening(file):
    """What opening makes of a file, by the page of the format: the status, and where it is opened how many of its bytes
    stay, and what stands behind them."""
    try:
        left = opened(file)
    except NotStore:
        return "6"
    except Damaged as why:
        return "7 %d" % why.offset
    stays = in_common(file, left)
    return ("0 keeps %d %s" % (stays, left[stays:].hex())).rstrip(" ")


class Case:
    """A run of the program, or one for each number of its line `each`: what it is given, and what it is to come to."""

    GIVEN = ("words", "word", "clock", "gives", "takes", "last", "fails", "table")

    def __init__(self, name):
        self.name = name
        self.given = []
        self.file = b""
        self.each = None
        self.status = "0"
        self.faults = {}
        self.output = []
        self.left = None
        self.table = None
        self.rows = []
        self.owes = ""

    def take(self, mark, rest):
        """Takes a line of its text, and says whether it is of the form."""
        if mark == "table":
            self.table = rest.split()
        if mark[0] == ">" or mark in self.GIVEN:
            self.given.append("> " + rest if mark == ">" else (mark + " " + rest).rstrip(" "))
        elif mark == "file":
            self.file = bytes.fromhex(rest)
        elif mark == "each":
            self.each = rest.split()
        elif mark in ("<", "<x"):
            self.output.append(b"< " + bytes_of(mark, rest))
        elif mark == "<cut":
            self.output.append(b"<cut")
        elif mark == "at":
            self.rows.append(rest.split())
        elif mark == "owes":
            self.owes = rest
        elif mark == "writes":
            text, name = rest.split()
            pairs = row_of(os.path.join(TEXTS, text + ".txt"), name).pairs
            self.given += ['> {"write":%s}' % line.decode() for line, _ in pairs if b'"write"' in line]
        elif mark in ("fronts", "raised"):
            self.thaws(mark, rest)
        elif mark == "status":
            self.status = rest
        elif mark == "faults":
            whose, count = rest.split()
            self.faults[whose] = count
        elif mark == "left":
            self.left = OPENED if rest == OPENED else bytes.fromhex(rest)
        else:
            return False
        return True

    def thaws(self, mark, number):
        """The last line, which thaws a text, once for each front of this text, and once for each place in it that is raised to a number:
        the front could begin one, and the place lies past the end."""
        before, text, behind = re.fullmatch(r'(.*"text":")([^"]*)("}})', self.given[-1]).groups()
        if mark == "fronts":
            refused = [(text[:count], offset(text[:count])) for count in range(len(text))]
        else:
            raised = [text[:first] + number + text[last:] for first, last in places(text)]
            refused = [(other, len(other)) for other in raised]
        line = sum(one.startswith("> ") for one in self.given)
        shown = sum(one.startswith('> {"write":') for one in self.given)
        for at, (other, count) in enumerate(refused, line):
            self.given.append(before + other + behind)
            self.output.append(b'< {"code":"/api/status/error","dateline":%d,"error":"BadFrozen","info":{"offset":%d},"line":%d}' % (shown, count, at))

    def variants(self):
        """The name of each run, its file, and the call that fails besides."""
        if self.each is None:
            return [(self.name, self.file, None)]
        what, numbers, *digits = self.each
        if what == "workers":
            return [("%s/%s" % (self.name, n), self.file, None) for n in [numbers] + digits]
        first, last = (int(number) for number in numbers.split("-"))
        numbers = range(first, last + 1)
        if what == "cut":
            return [("%s/%d" % (self.name, n), self.file[:n], None) for n in numbers]
        if what == "byte":
            return [("%s/%d/%s" % (self.name, n, byte), self.file[:n] + bytes.fromhex(byte) + self.file[n + 1:], None)
                    for n in numbers for byte in digits]
        return [("%s/%d" % (self.name, n), self.file, "fails %s %d" % (what, n)) for n in numbers]

    def runs(self):
        """What the program reads, and what it is to print, for each run."""
        named = any(line.startswith("word") for line in self.given)
        on_threads = self.each is not None and self.each[0] == "workers"
        given = self.given if named or on_threads else in_rounds(self.given, "> ")
        for name, file, failing in self.variants():
            words = "words serve" + (" --workers " + name.rsplit("/", 1)[1] if on_threads else "")
            lines = ["row " + name] + ([] if named else [words])
            lines += (["file " + file.hex()] if file else []) + ([failing] if failing else []) + given
            wanted = self.wanted(name, file) if self.table is None else self.tabled(name, given)
            yield ("\n".join(lines) + "\n").encode(), wanted

    def tabled(self, name, given):
        """What the program is to print of a table."""
        what, *bytes_set = self.table
        out = ["row " + name]
        if what in ("stops", "fails"):
            for numbers, *words in self.rows:
                first, last = (numbers.split("-") * 2)[:2]
                out += ["at %d %s" % (number, " ".join(words)) for number in range(int(first), int(last) + 1)]
        elif what == "cuts":
            out += merged([opening(self.file[:count]) for count in range(len(self.file) + 1)])
        elif what == "bytes":
            for byte in bytes_set:
                files = [self.file[:at] + bytes.fromhex(byte) + self.file[at + 1:] for at in range(len(self.file))]
                out += ["byte " + byte] + merged([opening(file) for file in files])
        elif what == "freezes":
            out.append("owes " + self.owes)
        else:
            return self.wanted(name, self.file) + ("\n".join(merged(self.streamed(what, given))) + "\n").encode()
        return ("\n".join(out) + "\n").encode()

    def number_given(self, mark):
        """The number that stands behind a mark, if it stands there."""
        return next((int(line.split()[1]) for line in self.given if line.split()[0] == mark), None)

    def streamed(self, what, given):
        """What comes of a run of which one call of the source or of the sink fails, for each call. The source gives so many
        bytes a call, and then the end; a round is answered once its blank line was given. The sink takes each reply and each
        newline in pieces of so many bytes, and is flushed at the end of each round."""
        lines = [line[2:].encode() + b"\n" for line in given if line[:2] == "> "]
        replies = [line[2:] for line in self.output]
        rounds, asked, answered = [], b"", []
        for line in lines:
            asked += line
            if line != b"\n":
                answered.append(replies[sum(len(before[1]) for before in rounds) + len(answered)])
            else:
                rounds.append((asked, answered))
                asked, answered = b"", []
        if what == "source":
            size = len(b"".join(lines))
            step = self.number_given("gives") or size
            ends, texts = 0, [(0, 0)]
            for text, out in rounds:
                ends += len(text)
                texts.append((ends, texts[-1][1] + sum(len(reply) + 1 for reply in out)))
            given_at = [min(call * step, size) for call in range(-(-size // step) + 1)]
            return ["3 gives %d" % max(out for end, out in texts if end <= at) for at in given_at]
        step, calls, sent = self.number_given("takes"), [], 0
        for _, out in rounds + [(asked, answered)]:
            for piece in (piece for reply in out for piece in (reply, b"\n")):
                width = step or len(piece)
                calls += [sent + at for at in range(0, len(piece), width)]
                sent += len(piece)
            calls.append(sent)
        return ["4 gives %d" % sent for sent in calls]

    def wanted(self, name, file):
        """What the program is to print of the run of this name, over this file."""
        out = [b"row " + name.encode(), b"status " + self.status.encode()]
        out += [("faults %s %s" % (who, self.faults[who])).encode() for who in ("source", "sink", "shelf") if who in self.faults]
        left = opened(file) if self.left == OPENED else self.left
        # what is left as it was is not printed
        out += self.output + ([] if left in (None, file) else [b"left " + left.hex().encode()])
        return b"\n".join(out) + b"\n"


def cases_of(path):
    """The cases of a text."""
    cases, stem = [], os.path.splitext(os.path.basename(path))[0]
    with open(path, encoding="utf-8", newline="\n") as text:
        for number, line in enumerate(text, 1):
            mark, _, rest = line.rstrip("\n").partition(" ")
            if mark == "row":
                cases.append(Case(stem + "/" + rest))
            elif mark not in ("", "#") and not (cases and cases[-1].take(mark, rest)):
                raise BadText("%s:%d: a line is of no form" % (path, number))
    return cases


def program_files():
    """The input and the output of the program, as all texts give them."""
    runs = [run for path in texts() + texts(CASES) for case in cases_of(path) for run in case.runs()]
    return [(os.path.join(PROGRAM, name), b"".join(run[part] for run in runs)) for part, name in enumerate(("stdin", "stdout"))]


def quoted(text):
    """A text as antt spells it."""
    escapes = {'"': '\\"', "\\": "\\\\", "\t": "\\t", "\r": "\\r"}
    return '"%s"' % "".join(escapes.get(c, c) for c in text)


def term(data):
    """Bytes as a term: the codes of a text, or byte by byte where they are no printable text."""
    try:
        text = data.decode()
    except UnicodeDecodeError:
        text = None
    if text is None or not text.replace("\t", "").replace("\r", "").isprintable():
        return "(%s)" % " ∷ ".join([str(byte) for byte in data] + ["[]"])
    if text.isascii():
        return "codes " + quoted(text)
    return "encode_utf8_all (codes %s)" % quoted(text)


def lemma(row, says="AreReplies"):
    """A row as a lemma: each line with its reply, by computation."""
    out = ["-- " + line for line in row.comment]
    out.append("pub %s : %s (" % (row.name, says))
    for number, (line, reply) in enumerate(row.pairs):
        out.append("    %s%s" % ("∷ " if number else "", term(line)))
        out.append("    ⇒ %s" % term(reply))
    out.append("    ∷ [])")
    out.append("unfolding replies")
    out.append("%s = refl" % row.name)
    return out


def module_of(path):
    """The module of a text: `some_words.txt` is `SomeWords`."""
    words = os.path.splitext(os.path.basename(path))[0].split("_")
    return "".join(word.capitalize() for word in words)


def proof(header, rows, says="AreReplies"):
    """The content of a proof file: its header comment, and a lemma for each row."""
    body = "\n\n".join("\n".join(lemma(row, says)) for row in rows)
    out = ["-- " + line for line in header]
    words = [word for word in ("refl", "[]", "◌∷◌", "codes") if word != "codes" or "codes " in body]
    out.append("use Rattle.std.proofs.Common.{%s}" % ", ".join(words))
    if "encode_utf8_all" in body:
        out.append("use Rattle.std.specs.Prelude.{encode_utf8_all}")
    out.append("use Rattle.gd_runs.proofs.Plain.{◌⇒◌, replies, %s}" % says)
    return "\n".join(out) + "\n\n" + body + "\n"


def file_of(path):
    """The proof file of a text: its path and its content."""
    header, rows = rows_of(path)
    written = "Written by tools/row.py from %s." % os.path.relpath(path, TOP)
    return os.path.join(PROOFS, "rows", module_of(path) + ".antt"), proof(header + [written], rows)


def row_of(path, name):
    """A row of a text by its name."""
    for row in rows_of(path)[1]:
        if row.name == name:
            return row
    raise BadText("%s: there is no row %s" % (path, name))


def texts(folder=TEXTS):
    """Every text of a folder."""
    return sorted(os.path.join(folder, name) for name in os.listdir(folder) if name.endswith(".txt"))


def files(paths):
    """The files that texts give, and the one that names all of their modules."""
    out = [file_of(path) for path in paths]
    mods = ["-- The worked rows of rows/, written by tools/row.py."] + ["mod " + module_of(path) for path in texts()]
    out.append((os.path.join(PROOFS, "rows.antt"), "\n".join(mods) + "\n"))
    return [(path, content.encode()) for path, content in out] + program_files()


def content_of(path):
    """What stands in a file, nothing where there is none."""
    if not os.path.exists(path):
        return None
    with open(path, "rb") as file:
        return file.read()


def main():
    """Runs one of the commands of the head of this file."""
    parser = argparse.ArgumentParser(description=__doc__, formatter_class=argparse.RawDescriptionHelpFormatter)
    parser.add_argument("--check", action="store_true")
    parser.add_argument("--lines", action="store_true")
    parser.add_argument("--replies", action="store_true")
    parser.add_argument("--why", action="store_true")
    parser.add_argument("words", nargs="*", metavar="TEXT")
    given = parser.parse_args()
    if given.lines or given.replies or given.why:
        if len(given.words) != 2:
            parser.error("a text and a row are wanted")
        row = row_of(*given.words)
        if given.why:
            print(proof(["Why the row %s does not compute." % row.name], [row], "NoneIsWrong"), end="")
            return 0
        lines, replies = ([pair[part].decode("latin-1") for pair in row.pairs] for part in (0, 1))
        for line in in_rounds(lines) if given.lines else replies:
            sys.stdout.buffer.write(line.encode("latin-1") + b"\n")
        return 0
    known = {module_of(path) + ".antt" for path in texts()}
    for name in sorted(set(os.listdir(os.path.join(PROOFS, "rows"))) - known):
        raise BadText("%s has no text in rows/" % os.path.relpath(os.path.join(PROOFS, "rows", name), TOP))
    stale = 0
    for path, content in files([os.path.abspath(word) for word in given.words] or texts()):
        if content_of(path) == content:
            continue
        stale += 1
        print(("is not what its text gives: " if given.check else "wrote ") + os.path.relpath(path, TOP))
        if not given.check:
            os.makedirs(os.path.dirname(path), exist_ok=True)
            with open(path, "wb") as file:
                file.write(content)
    return 1 if given.check and stale else 0


if __name__ == "__main__":
    try:
        sys.exit(main())
    except (BadText, ValueError) as error:
        sys.exit("row.py: %s" % error)
