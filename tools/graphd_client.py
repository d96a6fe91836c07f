"""A client of graphd: a store that a program reads and writes, behind `graphd serve` over a pipe.

    from graphd_client import Store

    with Store("people.graphd") as store:
        store.write({"create": "unconditional", "guid": None, "name": "Ann"})
        for row in store.read_all([{"name": "Ann", "guid": None}]):
            print(row["guid"])

A query is a value as JSON has it: dicts, lists, texts, whole numbers, True, False and None. Where a request is refused the call
raises a `Refused`, of the class that has the name of the error; where a write has no answer and may be stored all the same, an
`Unanswered`. Threads may share a store: each has a session of its own, and what several ask at the same time goes to the program in
one round. docs/CLIENT.md shows all of it at work; this file needs Python alone.
"""
from __future__ import annotations

import itertools
import json
import os
import queue
import subprocess
import threading
import time
from typing import Any, Dict, Iterable, Iterator, List, Optional, Sequence, Union

Query = Union[Dict[str, Any], List[Any]]
Request = Dict[str, Any]
Reply = Dict[str, Any]

TOP = os.path.dirname(os.path.dirname(os.path.realpath(__file__)))
# GRAPHD names another program than the one that is built here.
PROGRAM = os.environ.get("GRAPHD", os.path.join(TOP, "graphd"))
# A round has at most so many lines, a list or an object of a line so many parts; there are so many sessions.
ROUND = 256
PARTS = 64
SESSIONS = 64
# A list has at most so many rows, and so many where its query names no limit.
ROWS = 1000
ROWS_UNNAMED = 100
# No line of a reply has more bytes; so the buffer holds one whole.
BUFFER = 2 << 20

# What the errors say, and the codes of BadQuery.
MEANINGS = {
    "BadJson": "this is no JSON of the program",
    "TooDeep": "values lie more than 16 levels deep",
    "TooWide": "a list or an object has more than 64 parts",
    "FloatValue": "a number is not whole, or too large",
    "BadLine": "this is no line of the program",
    "LineTooLong": "a line has at most 262144 bytes",
    "NoSuchId": "the id leads to no object",
    "NoSuchProperty": "the word leads to no property",
    "NotUnique": "several stand where one is meant",
    "KeyTaken": "the key leads to another object",
    "StaleVersion": "the link was followed by another one already",
    "BadCursor": "the text is no cursor",
    "CursorAhead": "the store has not reached that dateline",
    "TooWideAnswer": "the answer is too wide; ask for less",
    "ReplyTooLarge": "the reply is too large; ask for less",
    "Full": "a limit of the store would be passed",
    "DiskFault": "the disk failed, and the write was not tried: nothing of it is stored",
    "DiskDoubt": "the disk failed while the write was written: it is stored or is not, and the next write ends the doubt",
    "MemoryLate": "the write is stored, and there was no memory to show it to readers yet",
    "Memory": "there was no memory, and nothing was stored",
    "envelope": "a member of the line is wrong",
    "list_form": "a list here is empty or has one form",
    "bad_word": "this name has no meaning here",
    "left_out": "this word is left out",
    "bad_directive": "a directive is wrong, or may not stand here",
    "bad_operand": "the value has not the form that the name asks",
    "bad_write": "a write has no such form",
    "bad_create": "create is unconditional, or unless_exists with a fact to look for",
    "bad_connect": "connect is insert, delete or update; update needs a unique property, and no key",
    "bad_value": "the value is not of the property's kind",
    "bad_operator": "the operator does not go with this",
    "value_reversed": "a property of values is not asked backwards",
    "object_form": "a form on a value has other members",
    "bad_sort": "this cannot be sorted by",
    "not_met": "this does not hold",
    "bad_previous": "this is no link of the property, or one of another language",
    "bad_lang": "this object is no language",
}

# What the exit statuses of the program say.
STATUSES = {
    2: "its words were wrong",
    3: "its input failed",
    4: "its output failed",
    5: "the disk failed, or another program has the file open",
    6: "the file is no store",
    7: "the file is damaged",
    8: "there was no memory",
    10: "it was given too much input",
    11: "its input is no dump",
    12: "the dump starts at another batch than the store's next one",
    13: "a batch of the dump may not stand there",
}


class GraphdError(Exception):
    """What this module raises."""


class NoProgram(GraphdError):
    """The program that was to be started is not there."""

    def __init__(self, program: str) -> None:
        super().__init__("%s is not there, or is no program: `./graphd build` at the top of the repository builds graphd" % program)
        self.program = program


class Ended(GraphdError):
    """The program ended, with this `status`, before it had answered."""

    def __init__(self, status: int) -> None:
        why = STATUSES.get(status)
        super().__init__("the program ended with status %d%s" % (status, ": " + why if why else ""))
        self.status = status


class NotShown(GraphdError):
    """The store did not come to show the dateline that was `asked`; it shows `have`."""

    def __init__(self, asked: int, have: int) -> None:
        super().__init__("the store does not show dateline %d yet; it shows %d" % (asked, have))
        self.asked, self.have = asked, have


class Failed(GraphdError):
    """A request has no answer.

    `error` is the name of the error, `info` what it tells, and each member of `info` is a field as well. `stored` says whether a write
    is stored: "no", "maybe" or "yes". `dateline` is the one over which the request was refused, None where there is none. `request` is
    what was asked.
    """

    error: str
    info: Dict[str, Any]
    stored: str
    dateline: Optional[int]
    request: Optional[Request]

    def __init__(self, reply: Reply, request: Optional[Request] = None) -> None:
        self.error, self.info = reply["error"], reply["info"]
        self.dateline, self.request = reply.get("dateline"), request
        self.__dict__.update(self.info)
        super().__init__(meaning_of(reply) + (" " + json.dumps(self.info, ensure_ascii=False) if self.info else ""))

    @property
    def meaning(self) -> str:
        """What the error says, in words."""
        return meaning_of({"error": self.error, "info": self.info})

    @staticmethod
    def of(reply: Reply, request: Optional[Request] = None) -> Failed:
        """The exception of a reply that is no answer, of the class that has the name of its error."""
        return KINDS.get(name_of(reply), Refused)(reply, request)


class Refused(Failed):
    """A request was refused: nothing of it was stored."""

    stored = "no"


class Unanswered(Failed):
    """A write has no answer, and is stored, or may be."""

    stored = "maybe"


class MemoryLate(Unanswered):
    """The write is stored, as the entry of this number, and there was no memory to show it to readers yet.

    Entries are counted from 0, so the write is in the store from the dateline on that is one more, which is `dateline` here;
    `Store.wait` waits for it.
    """

    stored = "yes"
    entry: int

    def __init__(self, reply: Reply, request: Optional[Request] = None) -> None:
        super().__init__(reply, request)
        self.dateline = self.entry + 1


class DiskDoubt(Unanswered):
    """The disk failed while the write was written: it is stored whole or not at all. The next write, or opening the file, ends the doubt."""


class LineTooLong(Refused):
    """The line of the request has more than 262,144 bytes."""


class BadJson(Refused):
    """The line is no JSON of the program."""


class TooDeep(Refused):
    """Values of the request lie more than 16 levels deep."""


class TooWide(Refused):
    """A list or an object of the request has more than 64 parts."""


class FloatValue(Refused):
    """A number of the request is not whole, or does not fit in 64 bits."""


class BadLine(Refused):
    """The line is no request."""


class BadQuery(Refused):
    """The query has a fault of this `code`, at the end of this `path` of names."""

    code: str
    path: List[str]


class DiskFault(Refused):
    """The disk failed before the write was tried."""


class BadCursor(Refused):
    """The text is no cursor; its first `offset` bytes go with the grammar of cursors."""

    offset: int


class CursorAhead(Refused):
    """The dateline that was `asked` is one that the store, which stands at `have`, has not reached."""

    asked: int
    have: int


class NoSuchId(Refused):
    """The id `path` leads to no object."""

    path: str


class NoSuchProperty(Refused):
    """The word at the end of this `path` of names leads to no property."""

    path: List[str]


class TooWideAnswer(Refused):
    """The answer weighs more than a page may."""

    weight: int


class NotUnique(Refused):
    """Several answers stand where one is meant, at the end of this `path` of names."""

    path: List[str]


class KeyTaken(Refused):
    """The `key` leads to the object `holder`."""

    key: str
    holder: str


class StaleVersion(Refused):
    """The link `previous` was followed by the link `successor` already."""

    previous: str
    successor: str


class ReplyTooLarge(Refused):
    """The line of the reply would have this many `bytes`."""

    bytes: int


class Full(Refused):
    """A limit of the store would be passed: of `what`, by this `count`."""

    what: str
    count: int


class Memory(Refused):
    """There was no memory for the request; nothing was stored."""


KINDS = {kind.__name__: kind for base in (Refused, Unanswered) for kind in base.__subclasses__()}


def name_of(reply: Reply) -> str:
    """The name of an error; a write that the disk left in doubt has one of its own.

    >>> name_of({"error": "DiskFault", "info": {"stored": "maybe"}}), name_of({"error": "DiskFault", "info": {"stored": "no"}})
    ('DiskDoubt', 'DiskFault')
    """
    return "DiskDoubt" if reply["error"] == "DiskFault" and reply["info"].get("stored") == "maybe" else reply["error"]


def meaning_of(reply: Reply) -> str:
    """What a reply that is no answer says, in words."""
    return MEANINGS.get(reply["info"].get("code", name_of(reply)), reply["error"])


def line_of(request: Request, sid: int = 0) -> bytes:
    """The line of a request, which is `read` or `write` with its members, or a line with its session as it is; without a newline."""
    whole = request if "sid" in request else dict(request, sid=sid)
    return json.dumps(whole, ensure_ascii=False, separators=(",", ":")).encode("utf-8", "surrogatepass")


def start_of(dateline: int) -> str:
    """The cursor of a list as it was at a dateline: the one behind the object `/`, the first of all, which is not in such a list.

    A list with `sort` or `return` has no such cursor.
    """
    return "c1:%d:0" % dateline


def run(words: Sequence[str], lines: bytes, program: Optional[str] = None, stderr: Optional[int] = None) -> subprocess.CompletedProcess:
    """A whole run of the program with these words: all lines go in at once, and `stdout` has the replies.

    `stderr` says where its standard error goes, as in `subprocess.run`.
    """
    try:
        return subprocess.run([program or PROGRAM, *words], input=lines, stdout=subprocess.PIPE, stderr=stderr, check=False)
    except OSError:
        raise NoProgram(program or PROGRAM) from None


class Pipe:
    """A process that takes lines, and answers them by lines: bytes in, bytes out, by one thread at a time.

    The process has a group of its own, so that an interrupt at the keyboard does not end it.
    """

    def __init__(self, command: Sequence[str]) -> None:
        try:
            self.child: Any = subprocess.Popen(list(command), stdin=subprocess.PIPE, stdout=subprocess.PIPE, bufsize=BUFFER,
                                               start_new_session=True)
        except OSError:
            raise NoProgram(command[0]) from None
        # (an interrupt while lines are sent may leave half a line behind; then nothing more can be said)
        self.is_whole = True

    def send(self, text: bytes) -> None:
        """Sends lines."""
        if not self.is_whole:
            raise Ended(self.close())
        self.is_whole = False
        try:
            self.child.stdin.write(text)
            self.child.stdin.flush()
        except (OSError, ValueError):
            raise Ended(self.child.wait()) from None
        self.is_whole = True

    def take(self) -> bytes:
        """The next line of an answer, with its newline."""
        line = self.child.stdout.readline()
        if not line.endswith(b"\n"):
            raise Ended(self.child.wait())
        return line

    def ask(self, text: bytes, count: int = 1) -> List[bytes]:
        """Sends lines, and takes so many lines of answers."""
        self.send(text)
        return [self.take() for _ in range(count)]

    def close(self) -> int:
        """Ends the input, reads what the process still says, and gives its status."""
        try:
            self.child.stdin.close()
        except OSError:
            pass
        if not self.child.stdout.closed:
            self.child.stdout.read()
            self.child.stdout.close()
        return self.child.wait()


class Asked:
    """Lines that a thread has asked, at most a round of them: the replies, or why there are none. `done` is held until either is there."""

    def __init__(self, lines: List[bytes]) -> None:
        self.lines = lines
        self.replies: List[bytes] = []
        self.failed: Optional[Exception] = None
        self.done = threading.Lock()
        self.done.acquire()


class Store:
    """A store that a program reads and writes.

    `path` is the file in which it is kept; without one the store is in memory, and gone at the end. `words` are further words of
    `graphd serve`, as ["--workers", "2"], and `program` is another program than the one of this repository.

    >>> with Store() as store:
    ...     store.read({"id": "/lang/en", "name": None})
    {'id': '/lang/en', 'name': 'English'}
    """

    def __init__(self, path: Optional[str] = None, words: Sequence[str] = (), program: Optional[str] = None) -> None:
        kept = ["--file", os.fspath(path)] if path is not None else []
        self.pipe = Pipe([program or PROGRAM, "serve", *kept, *words])
        self._local, self._sessions = threading.local(), itertools.count()
        # One thread alone is at the pipe. No interrupt comes to it, so each reply is given to the one who asked, whoever was interrupted.
        self._asked: queue.SimpleQueue[Optional[Asked]] = queue.SimpleQueue()
        self._is_open, self._closing = True, threading.Lock()
        self._thread = threading.Thread(target=self._answer, daemon=True)
        self._thread.start()

    def read(self, query: Query) -> Any:
        """The answer to a query: an object or None for `{..}`, a list for `[{..}]`, a number where it asks for a count."""
        return self.result({"read": {"query": query}})

    def read_all(self, query: Query, cursor: Union[bool, str] = True) -> Iterator[Dict[str, Any]]:
        """All rows of a list, page by page, as of the dateline of the first page, whatever is written meanwhile.

        `limit` in the query is the number of rows of a page, and not of all; a page that is too wide is asked for in smaller ones.
        """
        asked = dict(form_of(query))
        while cursor:
            try:
                reply = self.answer({"read": {"cursor": cursor, "query": [asked]}})
            except (TooWideAnswer, ReplyTooLarge):
                rows = asked.get("limit", ROWS_UNNAMED)
                if rows == 1:
                    raise
                asked["limit"] = max(1, rows // 4)
                continue
            yield from reply["result"]
            cursor = reply["cursor"]

    def write(self, query: Dict[str, Any], scope: Optional[str] = None) -> Any:
        """Carries out a write, and gives its query with what was done; it is stored whole, or refused and not at all.

        `scope` is the id of the object that stands behind what is made. An `Unanswered` is raised where the write is stored and not
        shown yet, or in doubt.
        """
        asked: Dict[str, Any] = {"query": query}
        if scope is not None:
            asked["scope"] = scope
        return self.result({"write": asked})

    def queries(self, queries: Sequence[Query]) -> List[Any]:
        """The answers to 1 to 16 queries, in their order, all at one dateline.

        Each is answered or refused by itself: where one is refused its place has the `Refused`, which is not raised. A list has its rows
        up to its limit, and no further pages.
        """
        reply = self.answer({"read": {"queries": [{"query": query} for query in queries]}})
        return [part_of(reply, number, query) for number, query in enumerate(queries)]

    def write_all(self, queries: Sequence[Dict[str, Any]], scope: Optional[str] = None) -> List[Any]:
        """Carries out 1 to 16 writes as one, and gives each query with what was done: all are stored, at one dateline, or none is.

        The words and ids of all are looked up in the store as it was before; then they are carried out in order, each over what those
        before it made. Where one is refused all are, and its number begins the `path`, where there is one. `scope` is as for `write`.
        """
        asked: Dict[str, Any] = {"queries": list(queries)}
        if scope is not None:
            asked["scope"] = scope
        return self.result({"write": asked})

    def at(self, dateline: int) -> Snapshot:
        """The store as it was at a dateline."""
        return Snapshot(self, dateline)

    def dateline(self) -> int:
        """The dateline of the store: how many writes it has taken."""
        return self.answer({"read": {"query": {"id": "/", "guid": None}}})["dateline"]

    def wait(self, dateline: int, seconds: float = 10.0) -> int:
        """Waits until the store shows this dateline, and gives the one that it shows; a `NotShown` after so many seconds without it."""
        until, pause = time.monotonic() + seconds, 0.001
        while True:
            shown = self.dateline()
            if shown >= dateline:
                return shown
            if time.monotonic() + pause > until:
                raise NotShown(dateline, shown)
            time.sleep(pause)
            pause = min(2 * pause, 0.1)

    def result(self, request: Request) -> Any:
        """The result of a request as the line has it; raises what it was refused by."""
        return self.answer(request)["result"]

    def answer(self, request: Request) -> Reply:
        """The whole reply to a request, with its dateline and maybe a cursor; raises what it was refused by."""
        reply = self.ask(request)
        if "error" in reply:
            raise Failed.of(reply, request)
        return reply

    def ask(self, request: Request) -> Reply:
        """The reply to one request, also where it is a refusal."""
        return self.replies([request])[0]

    def replies(self, requests: Iterable[Request]) -> List[Reply]:
        """The reply to each request, in rounds as large as may be; refusals are among them, and nothing is raised for these."""
        sid = self.sid()
        return [json.loads(line) for line in self.lines([line_of(request, sid) for request in requests])]

    def sid(self) -> int:
        """The session of this thread. Where more threads ask than there are sessions some share one."""
        if not hasattr(self._local, "sid"):
            self._local.sid = next(self._sessions) % SESSIONS
        return self._local.sid

    def lines(self, lines: List[bytes]) -> List[bytes]:
        """The line of the reply to each of these lines, none of which is blank."""
        return [reply for begin in range(0, len(lines), ROUND) for reply in self._round(lines[begin:begin + ROUND])]

    def _round(self, lines: List[bytes]) -> List[bytes]:
        """The replies to at most a round of lines."""
        asked = Asked(lines)
        with self._closing:
            if not self._is_open:
                raise Ended(self.pipe.close())
            self._asked.put(asked)
        asked.done.acquire()
        if asked.failed is not None:
            raise asked.failed
        return asked.replies

    def _answer(self) -> None:
        """What the thread at the pipe does: it sends who waits, as far as a round has room, and gives the replies, until the store is closed."""
        behind: Optional[Asked] = None
        while True:
            first = behind or self._asked.get()
            if first is None:
                return
            chosen, behind, room = [first], None, ROUND - len(first.lines)
            while not self._asked.empty():
                following = self._asked.get()
                if following is None or len(following.lines) > room:
                    behind = following
                    if following is None:
                        self._asked.put(None)
                    break
                chosen.append(following)
                room -= len(following.lines)
            self._give(chosen)

    def _give(self, chosen: List[Asked]) -> None:
        """Sends a round, and gives each who asked the replies, which come in the order of the lines."""
        lines = [line + b"\n" for asked in chosen for line in asked.lines]
        try:
            replies = iter(self.pipe.ask(b"".join(lines) + b"\n", len(lines)))
            for asked in chosen:
                asked.replies = list(itertools.islice(replies, len(asked.lines)))
        except Exception as failed:
            for asked in chosen:
                asked.failed = failed
        for asked in chosen:
            asked.done.release()

    def close(self) -> int:
        """Ends the program once what was asked is answered, and gives its exit status, which is 0 where all went well."""
        with self._closing:
            if self._is_open:
                self._is_open = False
                self._asked.put(None)
        self._thread.join()
        return self.pipe.close()

    def __enter__(self) -> Store:
        return self

    def __exit__(self, kind: Any, *_: Any) -> None:
        status = self.close()
        if status != 0 and kind is None:
            raise Ended(status)


def part_of(reply: Reply, number: int, query: Query) -> Any:
    """What one of several queries came to: its result, or the `Refused` that it was refused by."""
    part = reply["result"][number]
    return part["result"] if "error" not in part else Failed.of(dict(part, dateline=reply["dateline"]), {"read": {"query": query}})


class Snapshot:
    """A store as it was at a dateline.

    A list has all its rows but the object `/`; it cannot be sorted or counted here.
    """

    def __init__(self, store: Store, dateline: int) -> None:
        self.store, self.dateline = store, dateline

    def read_all(self, query: Query) -> Iterator[Dict[str, Any]]:
        """All rows of a list, page by page."""
        form = form_of(query)
        if "sort" in form or "return" in form:
            raise ValueError("a list as it was at a dateline has no sort and no return: the rows come in the order in which they were made")
        return self.store.read_all(form, start_of(self.dateline))

    def read(self, query: Query) -> Any:
        """The answer to a query: an object or None for `{..}`, and for `[{..}]` the rows up to its limit."""
        form = form_of(query)
        if isinstance(query, list):
            return list(itertools.islice(self.read_all(form), form.get("limit", ROWS_UNNAMED)))
        rows = list(itertools.islice(self.read_all(dict(form, limit=form.get("limit", 2))), form.get("limit", 2)))
        if len(rows) > 1:
            raise NotUnique({"error": "NotUnique", "info": {"path": []}, "dateline": self.dateline}, {"read": {"query": query}})
        return rows[0] if rows else None


def form_of(query: Query) -> Dict[str, Any]:
    """The form of a list `[{..}]`, or of an object `{..}`."""
    if isinstance(query, dict):
        return query
    if len(query) == 1 and isinstance(query[0], dict):
        return query[0]
    raise ValueError("a list is asked by [{..}]: %r" % (query,))
