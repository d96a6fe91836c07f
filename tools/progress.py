"""How far a long work is: on a terminal one line of standard error, redrawn; nothing where that is no terminal.

Where the library tqdm is there (`apt-get install python3-tqdm`) it draws the line, and else this module does.
"""
from __future__ import annotations

import sys
import time
from typing import Any, TextIO


def lasting(seconds: float) -> str:
    """A time in words.

    >>> lasting(39.6), lasting(200), lasting(7530)
    ('40 s', '3 min 20 s', '2 h 5 min')
    """
    whole = int(seconds + 0.5)
    if whole < 60:
        return "%d s" % whole
    if whole < 3600:
        return "%d min %d s" % divmod(whole, 60)
    return "%d h %d min" % divmod(whole // 60, 60)


def told(title: str, done: int, total: int, unit: str, seconds: float) -> str:
    """The line: how many are done of all, how many a second, and about how long to go.

    >>> told("objects", 300, 1200, "rows", 6.0)
    'objects: 300 of 1200 rows, 50 a second, about 18 s to go'
    >>> told("objects", 12, 12, "rows", 6.0), told("objects", 0, 12, "rows", 0.0)
    ('objects: 12 of 12 rows, 2.0 a second', 'objects: 0 of 12 rows')
    """
    line = "%s: %d of %d %s" % (title, done, total, unit)
    if done and seconds > 0:
        rate = done / seconds
        line += ", %.0f a second" % rate if rate >= 10 else ", %.1f a second" % rate
        if done < total:
            line += ", about %s to go" % lasting((total - done) / rate)
    return line


class Plain:
    """The line as this module draws it, at most ten times a second."""

    def __init__(self, title: str, total: int, unit: str, stream: TextIO) -> None:
        self.title, self.total, self.unit, self.stream = title, total, unit, stream
        self.done, self.begun, self.drawn = 0, time.monotonic(), 0.0
        self.update(0)

    def update(self, count: int) -> None:
        """So many more are done."""
        self.done += count
        now = time.monotonic()
        if now - self.drawn >= 0.1 or self.done >= self.total:
            self.drawn = now
            self.stream.write("\r\033[K" + told(self.title, self.done, self.total, self.unit, now - self.begun))
            self.stream.flush()

    def close(self) -> None:
        """Ends the line."""
        self.stream.write("\n")
        self.stream.flush()


class Progress:
    """A work of so many parts: `with Progress("objects", 500, "rows") as progress: ... progress.add(1)`."""

    def __init__(self, title: str, total: int, unit: str = "rows") -> None:
        self.line: Any = drawn(title, total, unit, sys.stderr) if total and sys.stderr.isatty() else None

    def add(self, count: int = 1) -> None:
        """So many more are done."""
        if self.line is not None:
            self.line.update(count)

    def __enter__(self) -> Progress:
        return self

    def __exit__(self, *_: Any) -> None:
        if self.line is not None:
            self.line.close()


def drawn(title: str, total: int, unit: str, stream: TextIO) -> Any:
    """What draws the line."""
    try:
        from tqdm import tqdm
    except ImportError:
        return Plain(title, total, unit, stream)
    return tqdm(total=total, desc=title, unit=" " + unit, file=stream, dynamic_ncols=True)
