"""Tables of three kinds as rows: CSV with a header, JSON lines, and N-Triples, a row for each subject.

A row is a dict of columns. A cell is a text, or what JSON has there; a list has several. Of N-Triples the columns are predicates, the
column `@id` has the subject, and each cell is a list; a text of another language than English is a `Spoken`.
"""
from __future__ import annotations

import csv
import json
import re
from typing import Any, Dict, Iterable, Iterator, List, Sequence, TextIO, Tuple

Row = Dict[str, Any]
# The column of N-Triples with the subject.
SUBJECT = "@id"

IRI = r"<[^\x00-\x20<>\"{}|^`]*>"
NODE = IRI + r"|_:[^\s.]+(?:\.+[^\s.]+)*"
LITERAL = r'"(?:[^"\\\n\r]|\\.)*"(?:@[A-Za-z]+(?:-[A-Za-z0-9]+)*|\^\^' + IRI + ")?"
TRIPLE = re.compile(r"[ \t]*(%s)[ \t]*(%s)[ \t]*(%s|%s)[ \t]*\.[ \t]*(?:#.*)?" % (NODE, IRI, NODE, LITERAL))
NOTHING = re.compile(r"[ \t]*(?:#.*)?")
ESCAPE = re.compile(r"\\(?:u([0-9A-Fa-f]{4})|U([0-9A-Fa-f]{8})|(.))", re.S)
LETTERS = {"t": "\t", "b": "\b", "n": "\n", "r": "\r", "f": "\f", '"': '"', "'": "'", "\\": "\\"}


class BadTable(Exception):
    """A table is not what its name says, at this line."""


class Spoken(str):
    """A text in a language, which is that of the key `language` in /lang."""

    language: str

    def __new__(cls, text: str, language: str) -> Spoken:
        made = super().__new__(cls, text)
        made.language = language
        return made


def rows_of(path: str, prefixes: Sequence[str] = ()) -> Iterator[Tuple[int, Row]]:
    """The rows of a table, each with its number, counted from 1; by the end of its name it is JSON lines, N-Triples or else CSV.

    `prefixes` are what is cut off in front of the IRIs of N-Triples; of any other IRI what stands behind its last `/` or `#` is left.
    """
    with open(path, encoding="utf-8-sig", newline="") as text:
        if path.endswith((".jsonl", ".ndjson")):
            rows: Iterable[Row] = json_lines(path, text)
        elif path.endswith(".nt"):
            rows = subjects(path, text, prefixes)
        else:
            rows = csv.DictReader(text)
        yield from enumerate(rows, 1)


def json_lines(path: str, text: TextIO) -> Iterator[Row]:
    """Each line that is not blank is an object."""
    for number, line in enumerate(text, 1):
        if line.strip():
            try:
                row = json.loads(line)
            except ValueError as fault:
                raise BadTable("%s, line %d: no JSON: %s" % (path, number, fault)) from None
            if not isinstance(row, dict):
                raise BadTable("%s, line %d: no object" % (path, number))
            yield row


def subjects(path: str, text: TextIO, prefixes: Sequence[str]) -> Iterator[Row]:
    """The subjects of N-Triples in the order in which they first come, each with all its triples, wherever these stand.

    >>> import io
    >>> list(subjects("cities.nt", io.StringIO('<http://a.org/city/at> <http://a.org/label> "Wien"@de , # no triple'), []))
    Traceback (most recent call last):
        ...
    tables.BadTable: cities.nt, line 1: no triple: <http://a.org/city/at> <http://a.org/label> "Wien"@de , # no triple
    >>> lines = ['# cities', '_:b0.1 <http://a.org/in> <http://a.org/land/at>.', '', '<http://a.org/x#y> <http://a.org/in> _:b0.1 . # so']
    >>> list(subjects("cities.nt", io.StringIO("\\r\\n".join(lines)), ["http://a.org/land/"]))
    [{'@id': '_:b0.1', 'http://a.org/in': ['at']}, {'@id': 'y', 'http://a.org/in': ['_:b0.1']}]
    """
    rows: Dict[str, Row] = {}
    for number, line in enumerate(text, 1):
        line = line.rstrip("\r\n")
        found = TRIPLE.fullmatch(line)
        if found is None:
            if NOTHING.fullmatch(line):
                continue
            raise BadTable("%s, line %d: no triple: %s" % (path, number, line[:200]))
        subject, predicate, target = found.groups()
        row = rows.setdefault(subject, {SUBJECT: term(subject, prefixes)})
        cells: List[Any] = row.setdefault(unescaped(predicate[1:-1]), [])
        cell = term(target, prefixes)
        if all((cell, getattr(cell, "language", None)) != (other, getattr(other, "language", None)) for other in cells):
            cells.append(cell)
    yield from rows.values()


def term(spelled: str, prefixes: Sequence[str]) -> str:
    """A subject or an object: the short form of an IRI, a node's label, or the text of a literal.

    >>> term(r'"M\\u00FCnchen \\"M\\""@de-AT', []), term(r'"M\\u00FCnchen"@de-AT', []).language
    ('München "M"', 'de-at')
    >>> term('"Munich"@en', []), type(term('"Munich"@en', [])).__name__
    ('Munich', 'str')
    >>> term('"3"^^<http://www.w3.org/2001/XMLSchema#int>', []), term("_:b0", []), term("<http://a.org/b/c>", ["http://a.org/"])
    ('3', '_:b0', 'b/c')
    """
    if spelled.startswith("<"):
        return short(unescaped(spelled[1:-1]), prefixes)
    if not spelled.startswith('"'):
        return spelled
    end = spelled.rindex('"')
    text, behind = unescaped(spelled[1:end]), spelled[end + 1:]
    language = behind[1:].lower() if behind.startswith("@") else "en"
    return text if language == "en" else Spoken(text, language)


def short(iri: str, prefixes: Sequence[str]) -> str:
    """What is left of an IRI without the longest of these prefixes, or else behind its last `/` or `#`."""
    known = max((prefix for prefix in prefixes if iri.startswith(prefix)), key=len, default="")
    return iri[len(known):] if known else re.split("[/#]", iri.rstrip("/#"))[-1]


def unescaped(text: str) -> str:
    """A text of N-Triples without its escapes."""
    def character(found: re.Match) -> str:
        code = found.group(1) or found.group(2)
        return chr(int(code, 16)) if code else LETTERS.get(found.group(3), found.group(0))
    return ESCAPE.sub(character, text) if "\\" in text else text
