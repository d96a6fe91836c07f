"""Stores of the same people, in graphd and beside it: SQLite, PostgreSQL and Redis, each of which keeps a create on the disk before it
answers it. `bench/peers` asks all of them the same.

A person has a number, a key, a name that each fiftieth one has, an age, and a parent, which is another person: three people have the
same one. `KINDS` names what is read of them.
"""
from __future__ import annotations

import ctypes
import glob
import json
import os
import shutil
import signal
import sqlite3
import subprocess
import sys
import time
from typing import Any, Callable, Dict, Iterable, List, Optional, Sequence

BENCH = os.path.dirname(os.path.realpath(__file__))
sys.path.insert(0, os.path.join(os.path.dirname(BENCH), "tools"))
from graphd_client import ROUND, Pipe, start_of

BY_ID, BY_NAME, CHILDREN, TWO_HOPS, COUNT = "by id", "by name, the first 100", "children of one", "two hops, sorted", "a count with a join"
KINDS = (BY_ID, BY_NAME, CHILDREN, TWO_HOPS, COUNT)
# What is done besides.
CREATE, LOAD, AS_OF, REOPEN, BYTES, MEMORY = ("a create on the disk", "a person loaded", "a page as it was, beside creates", "opening again",
                                             "bytes on the disk", "bytes of memory")
NAMES = 50
# How long a server is waited for.
PATIENCE = 60.0


class Missing(Exception):
    """What a peer needs is not here; the text says how it is installed."""


class Wrong(Exception):
    """A peer answered by an error."""


def name(n: int) -> str:
    return "Name %d" % (n % NAMES)


def age(n: int) -> int:
    return n * 37 % 100


def key(n: int) -> str:
    return "p%d" % n


def parent(n: int) -> Optional[int]:
    return n // 3 if n else None


class Connection:
    """A way to a peer: requests that are sent, and what is answered to each."""

    def ask(self, requests: Sequence[Any]) -> List[Any]:
        """The raw answer to each request; all are sent together where the peer takes that."""
        raise NotImplementedError

    def freeze(self) -> None:
        """From now on what is read is as it is now."""
        raise NotImplementedError

    def close(self) -> None:
        """Ends it."""


class Peer:
    """A store of people. `cannot` says of what is asked why it is not done, and `how` how requests go there."""

    title = ""
    how = ""
    cannot: Dict[str, str] = {}

    def start(self) -> None:
        """Starts what serves the store, which is there from the last time or is made."""

    def stop(self) -> None:
        """Ends that."""

    def connection(self) -> Connection:
        raise NotImplementedError

    def load(self, numbers: Iterable[int]) -> None:
        """Makes these people, as quickly as the peer takes them and keeps all of them on the disk."""
        raise NotImplementedError

    def request(self, kind: str, n: int) -> Any:
        """The request of a kind about a person, or the one that makes the person."""
        raise NotImplementedError

    def answer(self, kind: str, raw: Any) -> Any:
        """What a raw answer tells, in the same form for all peers."""
        raise NotImplementedError

    def bytes(self) -> int:
        """What it has on the disk."""
        raise NotImplementedError

    def memory(self) -> int:
        """The memory that its store has, in bytes, as the system or the peer itself counts it."""
        raise NotImplementedError


def resident(process: int) -> int:
    """The memory of a process, in bytes, as the system counts it."""
    with open("/proc/%d/status" % process, encoding="ascii") as told:
        return 1024 * next(int(line.split()[1]) for line in told if line.startswith("VmRSS:"))


def dies_with_us() -> None:
    """Has the system end a server where this program is killed."""
    ctypes.CDLL(None).prctl(1, signal.SIGTERM)


def started(command: Sequence[str], folder: str, **more: Any) -> subprocess.Popen:
    """Starts a server in a folder, where it writes what it says into a file."""
    with open(os.path.join(folder, "said"), "ab") as said:
        return subprocess.Popen(list(command), cwd=folder, stdin=subprocess.DEVNULL, stdout=said, stderr=said, start_new_session=True,
                                preexec_fn=dies_with_us, **more)


def patiently(attempt: Callable[[], Any], faults: Any, server: subprocess.Popen) -> Any:
    """What an attempt gives once it succeeds."""
    until = time.monotonic() + PATIENCE
    while True:
        try:
            return attempt()
        except faults as fault:
            if time.monotonic() > until or server.poll() is not None:
                raise Wrong("the server does not answer: %s" % str(fault).strip()) from None
            time.sleep(0.002)


class Graphd(Peer):
    """The program over a file."""

    title = "graphd"
    how = "lines through a pipe; what is asked together is a round"
    SCHEMA: List[Dict[str, Any]] = [
        {"key": {"namespace": "/", "value": "people"}, "type": "/type/namespace"},
        {"key": {"namespace": "/people", "value": "person"}, "type": "/type/type"},
        {"key": {"namespace": "/people/person", "value": "age"}, "type": "/type/property", "expected_type": "/type/int", "unique": True},
        {"key": {"namespace": "/people/person", "value": "parent"}, "type": "/type/property", "unique": True,
         "/type/property/expected_type": {"connect": "insert", "id": "/people/person"}},
        {"key": {"namespace": "/people/person", "value": "child"}, "type": "/type/property",
         "/type/property/expected_type": {"connect": "insert", "id": "/people/person"},
         "/type/property/master_property": {"connect": "insert", "id": "/people/person/parent"}}]

    def __init__(self, program: str, folder: str) -> None:
        self.program, self.path = program, os.path.join(folder, "people.graphd")
        self.pipe: Any = None

    def start(self, workers: int = 1) -> None:
        is_new = not os.path.exists(self.path)
        self.pipe = Pipe([self.program, "serve", "--file", self.path, "--workers", str(workers)])
        if is_new:
            for query in self.SCHEMA:
                self.answer(CREATE, self.pipe.ask(self.line({"write": {"query": dict(query, create="unconditional")}}) + b"\n")[0])

    def stop(self) -> None:
        if self.pipe is not None:
            self.pipe.close()
            self.pipe = None

    def connection(self) -> Connection:
        return Sessions(self.pipe)

    def load(self, numbers: Iterable[int]) -> None:
        lines = [self.request(CREATE, n) for n in numbers]
        for begin in range(0, len(lines), ROUND):
            for reply in self.connection().ask(lines[begin:begin + ROUND]):
                self.answer(CREATE, reply)

    @staticmethod
    def line(request: Dict[str, Any], sid: int = 0) -> bytes:
        return json.dumps(dict(request, sid=sid), separators=(",", ":")).encode() + b"\n"

    def request(self, kind: str, n: int, sid: int = 0, cursor: Optional[str] = None) -> bytes:
        if kind == CREATE:
            query: Dict[str, Any] = {"create": "unconditional", "type": "/people/person", "name": name(n), "age": age(n),
                                     "key": {"namespace": "/people", "value": key(n)}}
            if parent(n) is not None:
                query["parent"] = {"id": "/people/" + key(parent(n) or 0)}
            return self.line({"write": {"query": query}}, sid)
        asked: Dict[str, Any] = {"query": self.query(kind, n)}
        return self.line({"read": dict(asked, cursor=cursor) if cursor else asked}, sid)

    @staticmethod
    def query(kind: str, n: int) -> Any:
        of = {"id": "/people/" + key(n), "type": "/people/person"}
        if kind == BY_ID:
            return {"id": of["id"], "name": None}
        if kind in (BY_NAME, AS_OF):
            return [{"type": "/people/person", "name": name(n), "id": None, "limit": 100}]
        if kind == CHILDREN:
            return dict(of, child=[{"id": None}])
        if kind == TWO_HOPS:
            return dict(of, child=[{"name": None, "sort": "name", "limit": 10, "child": [{"id": None}]}])
        return [{"type": "/people/person", "child": [{"age>=": n % 100}], "return": "count", "limit": 1000}]

    def answer(self, kind: str, raw: bytes) -> Any:
        reply = json.loads(raw)
        if "error" in reply:
            raise Wrong("graphd answers %s" % raw.decode())
        result = reply["result"]
        if kind == BY_ID:
            return result and result["name"]
        if kind in (BY_NAME, AS_OF):
            return [row["id"].rsplit("/", 1)[1] for row in result]
        if kind == CHILDREN:
            return [row["id"].rsplit("/", 1)[1] for row in result["child"]] if result else []
        if kind == TWO_HOPS:
            return [[row["name"], [each["id"].rsplit("/", 1)[1] for each in row["child"]]] for row in result["child"]] if result else []
        return result if kind == COUNT else None

    def dateline(self) -> int:
        return json.loads(self.pipe.ask(self.request(BY_ID, 0) + b"\n")[0])["dateline"]

    def frozen(self, pages: Sequence[int]) -> List[bytes]:
        """Requests of pages as they are now, whatever is written."""
        cursor = start_of(self.dateline())
        return [self.request(AS_OF, n, cursor=cursor) for n in pages]

    def bytes(self) -> int:
        return os.path.getsize(self.path)

    def memory(self) -> int:
        return resident(self.pipe.child.pid)


class Sessions(Connection):
    """Requests as the lines of a round, in the one pipe that there is to the program."""

    def __init__(self, pipe: Pipe) -> None:
        self.pipe = pipe

    def ask(self, requests: Sequence[bytes]) -> List[bytes]:
        return self.pipe.ask(b"".join(requests) + b"\n", len(requests))


# The tables, for SQLite and PostgreSQL.
TABLE = "create table person (id integer primary key, key text unique, name text, age integer, parent integer)"
INDEXES = ("create index by_name on person (name, id)", "create index by_parent on person (parent)", "create index by_age on person (age)")


class Sqlite(Peer):
    """A C program over SQLite's library, in a file with a write-ahead log that is synced at each transaction."""

    title = "SQLite"
    how = "lines through a pipe to a C program, with prepared statements"
    # Each has one parameter, a text that is the number of a person.
    STATEMENTS = {
        BY_ID: "select name from person where key = 'p' || ?",
        BY_NAME: "select key from person where name = 'Name ' || (cast(? as integer) % 50) order by id limit 100",
        CHILDREN: "select key from person where parent = cast(? as integer) order by id limit 100",
        TWO_HOPS: "select c.name, (select group_concat(key) from (select g.key from person g where g.parent = c.id order by g.id limit 100)) as keys"
                  " from person c where c.parent = cast(? as integer) and exists (select 1 from person g where g.parent = c.id)"
                  " order by c.name, c.id limit 10",
        COUNT: "select count(*) as n from (select p.id from person p where exists (select 1 from person c where c.parent = p.id"
               " and c.age >= cast(? as integer) % 100) limit 1000)",
        CREATE: "insert into person values (cast(?1 as integer), 'p' || ?1, 'Name ' || (cast(?1 as integer) % 50), cast(?1 as integer) * 37 % 100,"
                " case when cast(?1 as integer) > 0 then cast(?1 as integer) / 3 end)",
        "begin": "begin", "commit": "commit"}
    NUMBERS = {kind: number for number, kind in enumerate(STATEMENTS)}

    def __init__(self, folder: str) -> None:
        self.path, self.program = os.path.join(folder, "people.sqlite"), os.path.join(folder, "sqlite_pipe")
        self.open: List[Pipe] = []
        compiler = shutil.which("cc")
        if compiler is None:
            raise Missing("a C compiler for sqlite_pipe.c is not here: apt-get install gcc libc6-dev libsqlite3-dev")
        made = subprocess.run([compiler, "-O2", "-o", self.program, os.path.join(BENCH, "sqlite_pipe.c"), "-lsqlite3"], stderr=subprocess.PIPE,
                              text=True, check=False)
        if made.returncode != 0:
            raise Missing("sqlite_pipe.c is not compiled, SQLite's library may not be here: apt-get install libsqlite3-dev libc6-dev")

    def start(self) -> None:
        if not os.path.exists(self.path):
            base = sqlite3.connect(self.path)
            base.execute("pragma journal_mode = wal")
            base.executescript(";".join((TABLE,) + INDEXES))
            base.close()
        self.connection()

    def stop(self) -> None:
        while self.open:
            self.open.pop().close()

    def connection(self) -> Connection:
        pipe = Pipe([self.program, self.path, "wal"])
        self.open.append(pipe)
        pipe.send(("".join(statement + "\n" for statement in self.STATEMENTS.values()) + "\n").encode())
        return Process(pipe)

    def load(self, numbers: Iterable[int]) -> None:
        # (in parts, so that neither end waits for the other with its pipe full)
        rounds, requests = Sessions(self.open[0]), [self.request(CREATE, n) for n in numbers]
        rounds.ask([self.request("begin", 0)])
        for begin in range(0, len(requests), 1000):
            rounds.ask(requests[begin:begin + 1000])
        rounds.ask([self.request("commit", 0)])

    def request(self, kind: str, n: int) -> bytes:
        return b"%d %d\n" % (self.NUMBERS[BY_NAME if kind == AS_OF else kind], n)

    def answer(self, kind: str, raw: bytes) -> Any:
        rows = json.loads(raw)["result"]
        if kind == BY_ID:
            return rows[0]["name"] if rows else None
        if kind in (BY_NAME, AS_OF, CHILDREN):
            return [row["key"] for row in rows]
        if kind == TWO_HOPS:
            return [[row["name"], row["keys"].split(",")] for row in rows]
        return rows[0]["n"] if kind == COUNT else None

    def bytes(self) -> int:
        base = sqlite3.connect(self.path)
        base.execute("pragma wal_checkpoint(truncate)").fetchall()
        base.close()
        return os.path.getsize(self.path)

    cannot = {MEMORY: "it keeps its tables on the disk, and in memory a cache of a size that one chooses"}


class Process(Sessions):
    """Requests as lines for a process of its own."""

    def freeze(self) -> None:
        self.ask([b"%d 0\n" % Sqlite.NUMBERS[word] for word in ("begin", BY_NAME)])

    def close(self) -> None:
        self.pipe.close()


class Postgres(Peer):
    """A server of its own, in a folder of its own, by a socket of that folder."""

    title = "PostgreSQL"
    how = "psycopg2 over a socket, with prepared statements; no request is sent before the one before it is answered"
    STATEMENTS = {
        BY_ID: ("text", "select name from person where key = $1"),
        BY_NAME: ("text", "select key from person where name = $1 order by id limit 100"),
        CHILDREN: ("integer", "select key from person where parent = $1 order by id limit 100"),
        TWO_HOPS: ("integer", "select c.name, (select string_agg(key, ',') from (select g.key from person g where g.parent = c.id order by g.id limit 100) k)"
                              " from person c where c.parent = $1 and exists (select 1 from person g where g.parent = c.id) order by c.name, c.id limit 10"),
        COUNT: ("integer", "select count(*) from (select p.id from person p where exists (select 1 from person c where c.parent = p.id"
                           " and c.age >= $1) limit 1000) n"),
        CREATE: ("integer, text, text, integer, integer", "insert into person values ($1, $2, $3, $4, $5)")}
    WORDS = {kind: "s%d" % number for number, kind in enumerate(STATEMENTS)}
    cannot = {MEMORY: "its processes share a cache of a size that one chooses, and its tables are on the disk"}

    def __init__(self, folder: str) -> None:
        try:
            import psycopg2
        except ImportError:
            raise Missing("psycopg2, by which PostgreSQL is asked, is not here: apt-get install python3-psycopg2") from None
        self.library = psycopg2
        self.initdb, self.program = found("initdb"), found("postgres")
        self.folder = os.path.join(folder, "postgres")
        self.server: Any = None
        self.open: List[Any] = []
        # (the server does not run as root)
        self.user: Dict[str, Any] = {"user": "postgres", "group": "postgres", "extra_groups": []} if os.geteuid() == 0 else {}
        os.mkdir(self.folder)
        if self.user:
            os.chmod(folder, 0o711)
            try:
                shutil.chown(self.folder, "postgres", "postgres")
            except LookupError:
                raise Missing("PostgreSQL does not run as root, and there is no user postgres: apt-get install postgresql") from None

    def start(self) -> None:
        data = os.path.join(self.folder, "data")
        if not os.path.exists(data):
            made = subprocess.run([self.initdb, "-D", data, "-U", "people", "-A", "trust", "--locale=C", "-E", "UTF8"], cwd=self.folder,
                                  stdout=subprocess.DEVNULL, stderr=subprocess.PIPE, text=True, check=False, **self.user)
            if made.returncode != 0:
                raise Missing("PostgreSQL makes no store: %s" % made.stderr.strip())
        self.server = started([self.program, "-D", data, "-k", self.folder, "-c", "listen_addresses="], self.folder, **self.user)
        connection = self.connection()
        cursor = connection.cursor
        cursor.execute("select to_regclass('person')")
        if cursor.fetchone()[0] is None:
            for statement in (TABLE,) + INDEXES:
                cursor.execute(statement)
            connection.prepare()

    def stop(self) -> None:
        while self.open:
            self.open.pop().close()
        if self.server is not None:
            self.server.send_signal(signal.SIGINT)
            self.server.wait()
            self.server = None

    def connection(self) -> Any:
        made = patiently(lambda: self.library.connect(host=self.folder, dbname="postgres", user="people"), self.library.OperationalError, self.server)
        self.open.append(made)
        return Statements(made, self)

    def load(self, numbers: Iterable[int]) -> None:
        from psycopg2.extras import execute_values
        made = self.open[0]
        made.autocommit = False
        with made, made.cursor() as cursor:
            execute_values(cursor, "insert into person values %s", [self.request(CREATE, n)[1] for n in numbers], page_size=1000)
        made.autocommit = True
        with made.cursor() as cursor:
            cursor.execute("analyze person")

    def request(self, kind: str, n: int) -> Any:
        if kind == CREATE:
            given: Any = (n, key(n), name(n), age(n), parent(n))
        else:
            given = ({BY_ID: key(n), BY_NAME: name(n), AS_OF: name(n), COUNT: n % 100}.get(kind, n),)
        return "execute %s (%s)" % (self.WORDS[BY_NAME if kind == AS_OF else kind], ",".join(["%s"] * len(given))), given

    def answer(self, kind: str, raw: Any) -> Any:
        if kind == BY_ID:
            return raw[0][0] if raw else None
        if kind in (BY_NAME, AS_OF, CHILDREN):
            return [row[0] for row in raw]
        if kind == TWO_HOPS:
            return [[row[0], row[1].split(",")] for row in raw]
        return raw[0][0] if kind == COUNT else None

    def bytes(self) -> int:
        with self.open[0].cursor() as cursor:
            cursor.execute("select pg_total_relation_size('person')")
            return cursor.fetchone()[0]


class Statements(Connection):
    """A connection to PostgreSQL, with its prepared statements."""

    def __init__(self, made: Any, peer: Postgres) -> None:
        self.made, self.peer = made, peer
        made.autocommit = True
        self.cursor = made.cursor()
        self.cursor.execute("select to_regclass('person')")
        if self.cursor.fetchone()[0] is not None:
            self.prepare()

    def prepare(self) -> None:
        for kind, (types, statement) in self.peer.STATEMENTS.items():
            self.cursor.execute("prepare %s (%s) as %s" % (self.peer.WORDS[kind], types, statement))

    def ask(self, requests: Sequence[Any]) -> List[Any]:
        told = []
        for statement, given in requests:
            self.cursor.execute(statement, given)
            told.append(self.cursor.fetchall() if self.cursor.description else [])
        return told

    def freeze(self) -> None:
        self.cursor.execute("begin isolation level repeatable read")
        self.ask([self.peer.request(BY_NAME, 0)])

    def close(self) -> None:
        self.made.close()


def found(program: str) -> str:
    """Where a program of PostgreSQL is: on the path, or where Debian has it."""
    there = shutil.which(program) or max(glob.glob("/usr/lib/postgresql/*/bin/" + program), default=None)
    if there is None:
        raise Missing("PostgreSQL's %s is not here: apt-get install postgresql" % program)
    return there


class Redis(Peer):
    """A server of its own, by a socket of its folder, that syncs its log before it answers."""

    title = "Redis"
    how = "the library redis over a socket; what is asked together is a pipeline"
    cannot = {TWO_HOPS: "it has no joins: who asks goes from key to key", COUNT: "it has no joins: who asks goes from key to key",
              AS_OF: "it has no earlier state, and no transaction that reads while others write"}

    def __init__(self, folder: str) -> None:
        try:
            import redis
        except ImportError:
            raise Missing("the library redis, by which Redis is asked, is not here: apt-get install python3-redis") from None
        program = shutil.which("redis-server")
        if program is None:
            raise Missing("redis-server is not here: apt-get install redis-server")
        self.library, self.program, self.folder = redis, program, os.path.join(folder, "redis")
        self.server: Any = None
        self.open: List[Any] = []
        os.mkdir(self.folder)
        self.packer = redis.connection.Connection()

    def start(self) -> None:
        self.server = started([self.program, "--port", "0", "--unixsocket", os.path.join(self.folder, "socket"), "--dir", self.folder,
                               "--appendonly", "yes", "--appendfsync", "always", "--save", "", "--daemonize", "no"], self.folder)
        errors = (self.library.exceptions.ConnectionError, self.library.exceptions.BusyLoadingError, OSError)
        patiently(lambda: self.connection().ask([self.packed(("PING",))]), errors, self.server)

    def stop(self) -> None:
        while self.open:
            self.open.pop().disconnect()
        if self.server is not None:
            self.server.send_signal(signal.SIGTERM)
            self.server.wait()
            self.server = None

    def connection(self) -> Connection:
        made = self.library.connection.UnixDomainSocketConnection(path=os.path.join(self.folder, "socket"), decode_responses=True)
        made.connect()
        self.open.append(made)
        return Commands(made)

    def load(self, numbers: Iterable[int]) -> None:
        requests = [self.request(CREATE, n) for n in numbers]
        for begin in range(0, len(requests), 1000):
            self.connection().ask(requests[begin:begin + 1000])

    def packed(self, *commands: Sequence[Any]) -> Any:
        """A request of these commands: its bytes, and how many answers it has."""
        return b"".join(b"".join(self.packer.pack_command(*command)) for command in commands), len(commands)

    def request(self, kind: str, n: int) -> Any:
        if kind == BY_ID:
            return self.packed(("HGET", "p:" + key(n), "name"))
        if kind == BY_NAME:
            return self.packed(("ZRANGE", "name:" + name(n), 0, 99))
        if kind == CHILDREN:
            return self.packed(("ZRANGE", "child:" + key(n), 0, 99))
        facts = ["name", name(n), "age", age(n)] + ([] if parent(n) is None else ["parent", key(parent(n) or 0)])
        commands: List[Sequence[Any]] = [("MULTI",), ("HSET", "p:" + key(n), *facts), ("ZADD", "name:" + name(n), n, key(n))]
        if parent(n) is not None:
            commands.append(("ZADD", "child:" + key(parent(n) or 0), n, key(n)))
        return self.packed(*commands, ("EXEC",))

    def answer(self, kind: str, raw: Any) -> Any:
        for each in raw:
            if isinstance(each, Exception):
                raise Wrong("Redis answers %s" % each)
        return raw[-1]

    def bytes(self) -> int:
        return sum(os.path.getsize(path) for path in glob.glob(os.path.join(self.folder, "appendonlydir", "*")))

    def memory(self) -> int:
        (told,), = self.connection().ask([self.packed(("INFO", "memory"))])
        return next(int(line.split(":")[1]) for line in told.splitlines() if line.startswith("used_memory:"))


class Commands(Connection):
    """A connection to Redis, whose commands were packed before."""

    def __init__(self, made: Any) -> None:
        self.made = made

    def ask(self, requests: Sequence[Any]) -> List[Any]:
        self.made.send_packed_command([b"".join(packed for packed, _ in requests)])
        return [[self.made.read_response() for _ in range(count)] for _, count in requests]

    def close(self) -> None:
        self.made.disconnect()
