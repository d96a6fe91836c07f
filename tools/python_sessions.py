"""Sessions of Python that a page shows: blocks of four blanks that begin with `>>> `. They are run in order, in one interpreter."""
from __future__ import annotations

import contextlib
import doctest
import io
import os
import re
import sys
import traceback
from typing import Any, Dict

SESSION = re.compile(r"(?m)^    >>> .*\n(?:    .*\n|\n(?=    ))*")


def printed(source: str, names: Dict[str, Any]) -> str:
    """What an example prints: its value, what it writes, or the last lines of an exception as `doctest` shows one."""
    said = io.StringIO()
    with contextlib.redirect_stdout(said):
        try:
            exec(compile(source, "<page>", "single"), names)
        except Exception as failed:
            kind = "".join(traceback.format_exception_only(type(failed), failed))
            print("Traceback (most recent call last):\n    ...\n" + kind, end="")
    return said.getvalue()


def shown(example: doctest.Example, names: Dict[str, Any]) -> str:
    """An example with its prompts, and what it prints."""
    source = example.source.rstrip("\n").split("\n")
    prompts = [">>> " + source[0]] + [("... " + line).rstrip() for line in source[1:]]
    return "".join(line + "\n" for line in prompts) + printed(example.source, names)


def rewritten(page: str, folder: str) -> str:
    """A page whose sessions print what they print now, run in a folder that has `tools`."""
    names: Dict[str, Any] = {"__name__": "__page__"}
    parser = doctest.DocTestParser()

    def session(found: re.Match) -> str:
        block = "".join(line[4:] + "\n" for line in found.group(0).split("\n")[:-1])
        text = "".join(shown(example, names) for example in parser.get_examples(block))
        return "".join(("    " + line).rstrip() + "\n" for line in text.split("\n")[:-1])

    before = os.getcwd()
    os.chdir(folder)
    sys.path.insert(0, os.path.join(folder, "tools"))
    try:
        return SESSION.sub(session, page)
    finally:
        sys.path.pop(0)
        os.chdir(before)
