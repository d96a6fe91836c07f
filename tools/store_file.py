#!/usr/bin/env python3
"""Reads and writes files of stores, byte by byte as docs/FORMAT.md says. It knows nothing of the program.

    store_file.py FILE           prints what a file means: its version, and its records with their batches and primitives
    store_file.py --hex DIGITS   the same of bytes given as hexadecimal digits; blanks may stand anywhere
    store_file.py --opened FILE  prints, as hexadecimal digits, the bytes that opening the file leaves
    store_file.py --check        reads files of which it is known what they mean, and fails where one is read otherwise
    store_file.py --cases        compares with the cases of rows/cases what their files mean, and what opening leaves of them

The status is 0 where the file stands for batches. Else `NotStore` is printed, with status 6, or `Damaged OFFSET`, with status 7,
as those of the program are, and standard error tells what is wrong there. It is 1 where --check or --cases finds something
else than is wanted, 2 where the words are none of these, and 5 where the file cannot be read.
"""
import argparse
import io
import json
import os
import struct
import sys
from collections import namedtuple

HEADERS = {1: b"GRAPHD1\n", 2: b"GRAPHD2\n"}
# The payload that stands once in a file of version 1: behind it texts may have a language.
MARK = bytes.fromhex("00000002")
OPEN, CLOSED = b"\x01", b"\x00"
FIRST_GATE = 8
UNFINISHED = 9

MAX_PAYLOAD = 268_435_456
MAX_BATCHES = 256
MAX_BATCH = 4_096
MAX_PRIMITIVES = 2_097_151
MAX_TEXT = 4_096
MAX_TEXTS = 134_217_728
MAX_REQUESTS = 4_194_303
MAX_MOMENT = 253_402_300_799_999
MIN_MOMENT = -62_167_219_200_000
PRECISIONS = ("year", "month", "day", "time")

BUILTIN_END = 70
ROOT, LANGUAGES, ENGLISH, TYPE_OF_TYPES, TYPE_OF_PROPERTIES, TEXT, INT = 0, 2, 3, 5, 6, 7, 8
NAME, TYPE, KEY, EXPECTED_TYPE, UNIQUE = 13, 14, 15, 16, 17
# The names of the built-in list have so many bytes; they count among a store's texts.
BUILTIN_TEXTS = sum(map(len, (
    "type", "lang", "en", "object", "type", "property", "text", "int", "boolean", "datetime", "key", "namespace", "name", "type",
    "key", "expected_type", "unique", "master_property", "English", "Root", "Type", "Type", "Property")))

# What a file means: its version (None of an unfinished creation), its records, and the offset of the gate that ends them. A
# record is the offset of its gate, and its batches, or None of the mark.
File = namedtuple("File", "version records end")
Batch = namedtuple("Batch", "moment primitives")
Primitive = namedtuple("Primitive", "left right typ scope previous lang value name live")
Moment = namedtuple("Moment", "milliseconds precision")
# The references of a primitive in the order of their bytes, each with its flag; and the flags of what else there is.
REFERENCES = (("left", 1), ("right", 2), ("typ", 4), ("scope", 8), ("previous", 16), ("lang", 128))
NAMED, LIVE = 32, 64


class NotStore(Exception):
    """The bytes are no store."""


class Damaged(Exception):
    """A record is damaged; `offset` is that of its gate."""

    def __init__(self, offset, why):
        super().__init__(why)
        self.offset = offset


class BadGroup(Exception):
    """The bytes of a payload are no group."""


# ---- reading

class Bytes:
    """The bytes of a payload, which are taken from the front."""

    def __init__(self, data):
        self.data, self.at = data, 0

    def take(self, count):
        if len(self.data) - self.at < count:
            raise BadGroup("its bytes end too early")
        self.at += count
        return self.data[self.at - count:self.at]

    def number(self, form):
        """A number of a form of `struct`, big-endian."""
        return struct.unpack(">" + form, self.take(struct.calcsize(">" + form)))[0]

    def text(self):
        length = self.number("H")
        if length > MAX_TEXT:
            raise BadGroup("a text has %d bytes" % length)
        try:
            return self.take(length).decode()
        except UnicodeDecodeError:
            raise BadGroup("a text is no UTF-8") from None

    def value(self):
        kind = self.number("B")
        if kind == 0:
            return None
        if kind == 1:
            return self.text()
        if kind == 2:
            return self.number("q")
        if kind == 3:
            return bool(self.one_of(2, "a truth value"))
        if kind == 4:
            return self.moment()
        raise BadGroup("a value is of kind %d" % kind)

    def moment(self):
        precision, milliseconds = PRECISIONS[self.one_of(4, "a precision")], self.number("q")
        if not MIN_MOMENT <= milliseconds <= MAX_MOMENT:
            raise BadGroup("a moment is out of range")
        return Moment(milliseconds, precision)

    def one_of(self, count, what):
        byte = self.number("B")
        if byte >= count:
            raise BadGroup("%s is %d" % (what, byte))
        return byte

    def primitive(self):
        flags = self.number("B")
        references = {name: self.number("I") if flags & flag else None for name, flag in REFERENCES}
        value = self.value()
        return Primitive(value=value, name=self.text() if flags & NAMED else None, live=bool(flags & LIVE), **references)

    def batch(self):
        moment, count = self.number("Q"), self.number("H")
        if moment > MAX_MOMENT:
            raise BadGroup("a batch is of no moment of a clock")
        if count > MAX_BATCH:
            raise BadGroup("a batch has %d primitives" % count)
        return Batch(moment, [self.primitive() for _ in range(count)])

    def group(self):
        count = self.number("H")
        if not 1 <= count <= MAX_BATCHES:
            raise BadGroup("it has %d batches" % count)
        batches = [self.batch() for _ in range(count)]
        if self.at < len(self.data):
            raise BadGroup("bytes stand behind its last batch")
        return batches


class History:
    """The primitives so far: how many there are, which are succeeded, how many bytes their texts have, and the requests."""

    def __init__(self):
        self.length, self.succeeded = BUILTIN_END, set()
        self.texts, self.requests = BUILTIN_TEXTS, 0

    def add(self, batch):
        """Takes a batch in, and says why it may not follow, or None."""
        first, texts = self.length, self.texts
        for primitive in batch.primitives:
            why = self.misplaced(primitive)
            if why:
                return "place %d: %s" % (self.length, why)
            if primitive.previous is not None:
                self.succeeded.add(primitive.previous)
            texts += sum(len(text.encode()) for text in (primitive.value, primitive.name) if isinstance(text, str))
            self.length += 1
        self.texts, self.requests = texts, self.requests + 1
        for count, most, what in ((self.length - first, MAX_BATCH, "primitives of a batch"), (self.length, MAX_PRIMITIVES, "primitives"),
                                  (self.texts, MAX_TEXTS, "bytes of texts"), (self.requests, MAX_REQUESTS, "requests")):
            if count > most:
                return "%d %s are too many" % (count, what)
        return None

    def misplaced(self, primitive):
        """Which rule a primitive breaks at the end of the list, or None."""
        for name, _ in REFERENCES:
            reference = getattr(primitive, name)
            if reference is not None and reference >= self.length:
                return "its %s is %d, which is not there yet" % (name, reference)
        if not primitive.live and primitive.previous is None:
            return "it is not live, and succeeds nothing"
        if primitive.lang == ENGLISH:
            return "its language is English, which is never named"
        if primitive.lang is not None and not isinstance(primitive.value, str):
            return "it has a language, and no text"
        if primitive.previous in self.succeeded:
            return "its previous, %d, is succeeded already" % primitive.previous
        return None


def payload_at(data, gate):
    """The payload of the record whose gate is open at an offset."""
    if len(data) - gate < 5:
        raise Damaged(gate, "the length is not there")
    length, = struct.unpack_from(">I", data, gate + 1)
    if not 1 <= length <= MAX_PAYLOAD:
        raise Damaged(gate, "the length is %d" % length)
    if len(data) - gate < 5 + length + 1:
        raise Damaged(gate, "the payload or the next gate is not there in full")
    return data[gate + 5:gate + 5 + length]


def batches_of(payload, gate, history, marked):
    """The batches of a payload that is no mark, behind those of a history."""
    try:
        batches = Bytes(payload).group()
    except BadGroup as bad:
        raise Damaged(gate, "the payload is no group: %s" % bad) from None
    if not marked and any(primitive.lang is not None for batch in batches for primitive in batch.primitives):
        raise Damaged(gate, "a text has a language before the mark")
    for batch in batches:
        why = history.add(batch)
        if why:
            raise Damaged(gate, why)
    return batches


def meaning(data):
    """What the bytes of a file mean; raises NotStore, or Damaged with the first damage."""
    if len(data) <= UNFINISHED:
        return File(None, [], None)
    version = next((version for version, header in HEADERS.items() if data.startswith(header)), None)
    if version is None:
        raise NotStore("the file begins with no header")
    records, gate, history, marked = [], FIRST_GATE, History(), version == 2
    while data[gate:gate + 1] == OPEN:
        payload = payload_at(data, gate)
        if not marked and payload == MARK:
            records.append((gate, None))
            marked = True
        else:
            records.append((gate, batches_of(payload, gate, history, marked)))
        gate += 5 + len(payload)
    return File(version, records, gate)


def batches(file):
    """All batches of a file, in order."""
    return [batch for _, group in file.records if group is not None for batch in group]


def opened(data):
    """The bytes that opening leaves of a file that stands for batches; raises as `meaning` does."""
    file = meaning(data)
    if file.version is None:
        return HEADERS[2] + CLOSED
    if file.version == 1 and all(group is not None for _, group in file.records):
        return data[:file.end] + open_record(MARK) + CLOSED
    return data[:file.end + 1]


# ---- printing

def shown_value(value):
    if isinstance(value, Moment):
        return "%s:%d" % (value.precision, value.milliseconds)
    return json.dumps(value, ensure_ascii=False)


def shown_primitive(place, primitive):
    """The line of a primitive: its place, that it is not live, and what it has."""
    parts = ["%6d" % place] + ([] if primitive.live else ["dead"])
    parts += ["%s=%d" % (name, getattr(primitive, name)) for name, _ in REFERENCES if getattr(primitive, name) is not None]
    if primitive.value is not None:
        parts.append("value=" + shown_value(primitive.value))
    if primitive.name is not None:
        parts.append("name=" + shown_value(primitive.name))
    return "  ".join(parts)


def shown(file):
    """The lines that say what a file means."""
    if file.version is None:
        yield "an unfinished creation"
        return
    yield "version %d" % file.version
    place, number = BUILTIN_END, 0
    for gate, group in file.records:
        yield "record at %d: %s" % (gate, "the mark" if group is None else "%d batch%s" % (len(group), "" if len(group) == 1 else "es"))
        for batch in group or []:
            number += 1
            yield "  batch %d, moment %d" % (number, batch.moment)
            for primitive in batch.primitives:
                yield shown_primitive(place, primitive)
                place += 1
    yield "end at %d" % file.end


def told(data):
    """What is printed of bytes, the status, and what is wrong, if anything is."""
    try:
        return "".join(line + "\n" for line in shown(meaning(data))), 0, None
    except NotStore as why:
        return "NotStore\n", 6, why
    except Damaged as why:
        return "Damaged %d\n" % why.offset, 7, why


# ---- writing

def text(value):
    data = value.encode()
    return b"\x01" + struct.pack(">H", len(data)) + data


def number(value):
    return b"\x02" + struct.pack(">q", value)


def truth(value):
    return b"\x03" + bytes([value])


def primitive(left=None, right=None, typ=None, value=b"\x00", previous=None, lang=None):
    """A live primitive of its batch's moment, without scope and name."""
    flags, references = LIVE, b""
    for flag, reference in ((1, left), (2, right), (4, typ), (16, previous), (128, lang)):
        if reference is not None:
            flags |= flag
            references += struct.pack(">I", reference)
    return bytes([flags]) + references + value


def batch(primitives, moment=0):
    return struct.pack(">QH", moment, len(primitives)) + b"".join(primitives)


def open_record(payload):
    """An open gate, the length, and the payload."""
    return OPEN + struct.pack(">I", len(payload)) + payload


def record(batches):
    """A record of a group of batches."""
    return open_record(struct.pack(">H", len(batches)) + b"".join(batches))


class StoreFile:
    """A file to which records are added, and the place of the next primitive."""

    def __init__(self, path, version=2):
        self.file = path if isinstance(path, io.BytesIO) else open(path, "wb")
        self.file.write(HEADERS[version])
        self.place = BUILTIN_END

    def add(self, primitives):
        """One record of one batch; gives the place of its first primitive."""
        first = self.place
        self.file.write(record([batch(primitives)]))
        self.place += len(primitives)
        return first

    def mark(self):
        """The mark of a file of version 1."""
        self.file.write(open_record(MARK))

    def named(self, name, lang=None):
        """An object with a name, in English or in another language."""
        return self.add([primitive(), primitive(left=self.place, typ=NAME, value=text(name), lang=lang)])

    def renamed(self, named, name, succeeds=True):
        """Another name of the object at this place, in place of the one that it was made with or beside it."""
        previous = named + 1 if succeeds else None
        return self.add([primitive(left=named, typ=NAME, value=text(name), previous=previous)])

    def keyed(self, namespace, key, name):
        """An object with a key in a namespace and a name."""
        return self.add([primitive(),
                         primitive(left=self.place, right=namespace, typ=KEY, value=text(key)),
                         primitive(left=self.place, typ=NAME, value=text(name))])

    def type_of(self, namespace, key):
        """A type with a key in a namespace."""
        return self.add([primitive(),
                         primitive(left=self.place, right=TYPE_OF_TYPES, typ=TYPE),
                         primitive(left=self.place, right=namespace, typ=KEY, value=text(key))])

    def property_of(self, of, key, expected, unique):
        """A property of a type, by its key there."""
        return self.add([primitive(),
                         primitive(left=self.place, right=TYPE_OF_PROPERTIES, typ=TYPE),
                         primitive(left=self.place, right=of, typ=KEY, value=text(key)),
                         primitive(left=self.place, right=expected, typ=EXPECTED_TYPE),
                         primitive(left=self.place, typ=UNIQUE, value=truth(unique))])

    def close(self):
        """Ends the file with a closed gate, and gives its length."""
        self.file.write(CLOSED)
        size = self.file.tell()
        if not isinstance(self.file, io.BytesIO):
            self.file.close()
        return size


# ---- checking

V1, V2 = "475241504844310a", "475241504844320a"
# One batch: an object, place 70, and its English name. Then its name with the language 2 instead, which has the highest flag.
ANN = "01 0000001d 0001 0000000000000000 0002 4000 45 00000046 0000000d 01 0003 416e6e"
LANG = "01 00000021 0001 0000000000000000 0002 4000 c5 00000046 0000000d 00000002 01 0003 416e6e"
MARKED = "01 00000004 00000002"
# The name of the object at 70 in language 2, and its successors: a live one, and one that is not.
DE = "01 0000001f 0001 0000000000000000 0001 c5 00000046 0000000d 00000002 01 0003 416e61"
NEXT = "01 00000023 0001 0000000000000000 0001 d5 00000046 0000000d 00000048 00000002 01 0003 416e65"
GONE = "01 00000023 0001 0000000000000000 0001 95 00000046 0000000d 00000049 00000002 01 0003 416e65"


def group(primitives, moment="0000000000000000"):
    """A record of one batch of so many primitives, as digits: a number, and the digits of all."""
    count, digits = primitives
    data = bytes.fromhex("0001" + moment + "%04x" % count + digits)
    return "01 %08x %s" % (len(data), data.hex())


ANN_LINES = "record at 8: 1 batch\n  batch 1, moment 0\n    70\n    71  left=70  typ=13  value=\"Ann\"\n"
LANG_LINES = "  batch 1, moment 0\n    70\n    71  left=70  typ=13  lang=2  value=\"Ann\"\n"

# Files: what each is, its digits, and what is printed of it.
EXAMPLES = [
    ("nothing", "", "an unfinished creation\n"),
    ("nine bytes, whatever they are", "414141414141414141", "an unfinished creation\n"),
    ("a ninth byte, which is no gate", V1 + "01", "an unfinished creation\n"),
    ("ten bytes without a header", "41414141414141414141", "NotStore\n"),
    ("a header of version 3", "475241504844330a 00 00", "NotStore\n"),
    ("a header without its newline", "4752415048443120 00 00", "NotStore\n"),
    ("version 1, of 43 bytes", V1 + ANN + "00", "version 1\n" + ANN_LINES + "end at 42\n"),
    ("version 2, of 43 bytes", V2 + ANN + "00", "version 2\n" + ANN_LINES + "end at 42\n"),
    ("version 1 with the mark, of 52 bytes", V1 + ANN + MARKED + "00", "version 1\n" + ANN_LINES + "record at 42: the mark\nend at 51\n"),
    ("version 2 with a mark", V2 + MARKED + "00", "Damaged 8\n"),
    ("a second mark", V1 + ANN + MARKED + MARKED + "00", "Damaged 51\n"),
    ("the mark alone", V1 + MARKED + "00", "version 1\nrecord at 8: the mark\nend at 17\n"),
    ("the mark before the object", V1 + MARKED + ANN + "00",
     "version 1\nrecord at 8: the mark\n" + ANN_LINES.replace("at 8", "at 17") + "end at 51\n"),
    ("a mark of version 3", V1 + "01 00000004 00000003 00", "Damaged 8\n"),
    ("a mark with a further byte", V1 + "01 00000005 0000000200 00", "Damaged 8\n"),
    ("a mark without the next gate", V1 + ANN + MARKED, "Damaged 42\n"),
    ("a mark behind a closed gate", V1 + ANN + "00" + MARKED[2:] + "00", "version 1\n" + ANN_LINES + "end at 42\n"),
    ("a language before the mark", V1 + LANG + MARKED + "00", "Damaged 8\n"),
    ("a language behind the mark", V1 + MARKED + LANG + "00",
     "version 1\nrecord at 8: the mark\nrecord at 17: 1 batch\n" + LANG_LINES + "end at 55\n"),
    ("a language in version 2", V2 + LANG + "00", "version 2\nrecord at 8: 1 batch\n" + LANG_LINES + "end at 46\n"),
    ("English as a language", V2 + LANG.replace("00000002", "00000003") + "00", "Damaged 8\n"),
    ("a language that is not there yet", V2 + LANG.replace("00000002", "00000047") + "00", "Damaged 8\n"),
    ("a language of the same batch", V2 + LANG.replace("00000002", "00000046") + "00",
     "version 2\nrecord at 8: 1 batch\n" + LANG_LINES.replace("lang=2", "lang=70") + "end at 46\n"),
    ("a language of no text", V2 + group((1, "c0 00000002 02 0000000000000005")) + "00", "Damaged 8\n"),
    ("a language of an object", V2 + group((1, "c0 00000002 00")) + "00", "Damaged 8\n"),
    ("versions in a language", V2 + ANN + DE + NEXT + GONE + "00",
     "version 2\n" + ANN_LINES
     + "record at 42: 1 batch\n  batch 2, moment 0\n    72  left=70  typ=13  lang=2  value=\"Ana\"\n"
     + "record at 78: 1 batch\n  batch 3, moment 0\n    73  left=70  typ=13  previous=72  lang=2  value=\"Ane\"\n"
     + "record at 118: 1 batch\n  batch 4, moment 0\n    74  dead  left=70  typ=13  previous=73  lang=2  value=\"Ane\"\nend at 158\n"),
    ("a link that is succeeded twice", V2 + ANN + DE + NEXT + NEXT + "00", "Damaged 118\n"),
    ("each kind of value", V2 + group((5, "40 02 ffffffffffffffff 40 03 01 40 04 02 0000000000000000 60 00 0002 c3a9 48 00000003 00")) + "00",
     "version 2\nrecord at 8: 1 batch\n  batch 1, moment 0\n    70  value=-1\n    71  value=true\n    72  value=day:0\n"
     "    73  name=\"é\"\n    74  scope=3\nend at 61\n"),
    ("two batches of one group", V2 + "01 00000016 0002 0000000000000005 0000 0000000000000006 0000 00",
     "version 2\nrecord at 8: 2 batches\n  batch 1, moment 5\n  batch 2, moment 6\nend at 35\n"),
    ("no batches", V2 + "01 00000002 0000 00", "Damaged 8\n"),
    ("what is not live and succeeds nothing", V2 + group((1, "00 00")) + "00", "Damaged 8\n"),
    ("a truth value of 2", V2 + group((1, "40 03 02")) + "00", "Damaged 8\n"),
    ("a moment after the year 9999", V2 + group((1, "40 04 03 0000e677d21fdc00")) + "00", "Damaged 8\n"),
    ("a batch after the year 9999", V2 + group((0, ""), "0000e677d21fdc00") + "00", "Damaged 8\n"),
    ("a length of 0", V1 + "01 00000000 00", "Damaged 8\n"),
    ("a length above the greatest", V1 + "01 10000001 00 00", "Damaged 8\n"),
    ("the last gate open", V1 + ANN + "01", "Damaged 42\n"),
    ("another closed gate", V1 + ANN + "07 00 01", "version 1\n" + ANN_LINES + "end at 42\n"),
]

# Files, and what opening leaves of each.
OPENED = [
    ("", V2 + "00"),
    (V1 + "00", V2 + "00"),
    (V1 + ANN + "00", V1 + ANN + MARKED + "00"),
    (V1 + ANN + "07 010203", V1 + ANN + MARKED + "00"),
    (V1 + "07 010203", V1 + MARKED + "00"),
    (V1 + ANN + MARKED + "07 010203", V1 + ANN + MARKED + "07"),
    (V2 + ANN + "07 010203", V2 + ANN + "07"),
]


def written():
    """Files that this module writes, each with the digits that it must have."""
    for version, want in ((1, V1 + ANN + MARKED + "00"), (2, V2 + ANN + DE + "00")):
        file = StoreFile(io.BytesIO(), version)
        named = file.named("Ann")
        file.mark() if version == 1 else file.add([primitive(left=named, typ=NAME, value=text("Ana"), lang=LANGUAGES)])
        file.close()
        yield file.file.getvalue(), want


def check():
    """Compares the examples, and gives how many are read or written otherwise."""
    wrong = 0
    for what, digits, want in EXAMPLES:
        got, _, why = told(bytes.fromhex(digits))
        if got != want:
            wrong += 1
            print("%s: it is read as\n%s%s\nand should be\n%s" % (what, got, "(%s)" % why if why else "", want))
    pairs = [(opened(bytes.fromhex(digits)), want, "opening leaves") for digits, want in OPENED]
    pairs += [(data, want, "written are") for data, want in written()]
    for data, want, what in pairs:
        if data != bytes.fromhex(want):
            wrong += 1
            print("%s %s, and not %s" % (what, data.hex(), bytes.fromhex(want).hex()))
    print("%d files are as they should be" % (len(EXAMPLES) + len(pairs) - wrong))
    return wrong


def refused_status(data):
    """The status line of a case whose file is no store or damaged, or None."""
    try:
        meaning(data)
        return None
    except NotStore:
        return "6"
    except Damaged as damage:
        return "7 %d" % damage.offset


def compared(case, data):
    """What a case says otherwise of a file than it means: of the status, and, where nothing is written, of what is left."""
    from row import OPENED
    refused = refused_status(data)
    if case.status[0] in "67" or refused:
        return None if case.status == refused else "the status is %s, and by its bytes %s" % (case.status, refused or "the file is opened")
    if case.left == OPENED:
        return None
    left = data if case.left is None else case.left
    if refused_status(left):
        return "what is left is no store, or damaged"
    words = [word for line in case.given if line.startswith("words") for word in line.split()[1:2]]
    if words != ["restore"] and not any('"write"' in line or '"give"' in line for line in case.given) and left != opened(data):
        return "opening leaves %s, and the case has %s" % (opened(data).hex(), left.hex())
    return None


def runs_of(case):
    """The files of a case that is compared: of one without failing calls, whose words name the file."""
    words = [word for line in case.given if line.startswith("word") for word in line.split()[1:]]
    if any(line.startswith(("fails", "table")) for line in case.given) or not {"a/store", "--file=a/store"} & set(words):
        return []
    return [(name, data) for name, data, failing in case.variants() if failing is None and case.status.split()[0] in ("0", "6", "7")]


def cases():
    """Compares the files of the cases of rows/cases, and gives how many differ; of each case the first one is told."""
    from row import CASES, cases_of, texts
    wrong = count = 0
    for case in (case for path in texts(CASES) for case in cases_of(path)):
        found = [(name, compared(case, data)) for name, data in runs_of(case)]
        otherwise = [(name, why) for name, why in found if why]
        count += len(found)
        wrong += len(otherwise)
        if otherwise:
            print("%s: %s" % otherwise[0])
    print("%d files of cases compared, %d otherwise" % (count, wrong))
    return wrong


# ---- the command

def bytes_of(path):
    try:
        with open(path, "rb") as file:
            return file.read()
    except OSError as failed:
        print("store_file.py: %s: %s" % (path, failed.strerror), file=sys.stderr)
        sys.exit(5)


def main():
    parser = argparse.ArgumentParser(description=__doc__, formatter_class=argparse.RawDescriptionHelpFormatter, usage=argparse.SUPPRESS)
    which = parser.add_mutually_exclusive_group(required=True)
    which.add_argument("file", nargs="?", metavar="FILE")
    which.add_argument("--hex", metavar="DIGITS")
    which.add_argument("--opened", metavar="FILE")
    which.add_argument("--check", action="store_true")
    which.add_argument("--cases", action="store_true")
    given = parser.parse_args()
    if given.check or given.cases:
        return 1 if (check() if given.check else cases()) else 0
    try:
        data = bytes.fromhex(given.hex) if given.hex is not None else bytes_of(given.opened or given.file)
    except ValueError:
        parser.error("these are no hexadecimal digits")
    printed, status, why = told(data)
    print(opened(data).hex() + "\n" if given.opened and not status else printed, end="")
    if why:
        print("store_file.py: %s" % why, file=sys.stderr)
    return status


if __name__ == "__main__":
    sys.exit(main())
