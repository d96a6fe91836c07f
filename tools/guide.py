#!/usr/bin/env python3
"""Runs the sessions that docs/GUIDE.md and docs/CLIENT.md show, and writes what they print.

    guide.py [PAGE..]            writes the pages
    guide.py --check [PAGE..]    fails where a session prints anything else than a page shows

A session is a block of four blanks that begins with `$ `: a command, and under it what it prints. Below `tools/shell` the lines that
somebody typed stand behind its prompts. A block that begins with `>>> ` is a session of Python. Those of a page all run in one new
folder, where `tools`, `examples` and `graphd` are those of the repository; what they print to standard error is not shown. GRAPHD names
another program than the one that is built here, and then no session runs any other. The status is 0 where all pages are as wanted, 1
where one is not, and 2 where the words are wrong.
"""
from __future__ import annotations

import os
import re
import subprocess
import sys
import tempfile
from typing import List, Optional, Tuple

TOP = os.path.dirname(os.path.dirname(os.path.abspath(__file__)))
# Sessions run in another folder, so the program is named by its whole path, and what it is is settled before anything asks for it.
PROGRAM = os.environ["GRAPHD"] = os.path.abspath(os.environ.get("GRAPHD", os.path.join(TOP, "graphd")))

import python_sessions

PAGES = ("docs/GUIDE.md", "docs/CLIENT.md")
SESSION = re.compile(r"(?m)^    \$ .*\n(?:    .*\n|\n(?=    ))*")
PROMPT = re.compile(r"(?:graphd> |   \.\.\.> )(.*)")


def commands(block: str) -> List[Tuple[str, List[str]]]:
    """The commands of a session, each with the lines below it."""
    found: List[Tuple[str, List[str]]] = []
    for line in block.split("\n")[:-1]:
        line = line[4:]
        if line.startswith("$ "):
            found.append((line[2:], []))
        else:
            found[-1][1].append(line)
    return found


def printed(command: str, below: List[str], folder: str) -> str:
    """What a command prints; to the shell the lines behind its prompts are typed."""
    typed = "".join(found.group(1) + "\n" for found in map(PROMPT.fullmatch, below) if found)
    if command.startswith("tools/shell") and typed:
        command = command.replace("tools/shell", "tools/shell --echo", 1)
    done = subprocess.run(["sh", "-c", command], cwd=folder, input=typed, stdout=subprocess.PIPE, stderr=subprocess.PIPE, text=True)
    if done.returncode != 0:
        # (a page that draws is as wanted also where nothing is there that draws)
        print("guide.py: %s ended with status %d: %s" % (command, done.returncode, done.stderr.strip()), file=sys.stderr)
    return done.stdout


def rewritten(page: str, folder: str) -> str:
    """A page whose sessions of the command line print what they print now, run in a folder that has the tools."""
    def session(found: re.Match) -> str:
        text = "".join("$ %s\n%s" % (command, printed(command, below, folder)) for command, below in commands(found.group(0)))
        return "".join(("    " + line).rstrip() + "\n" for line in text.split("\n")[:-1])
    return SESSION.sub(session, page)


def differs(name: str, before: str, after: str) -> Optional[str]:
    """Says where a page shows anything else than its sessions print, if it does."""
    for number, (shown, said) in enumerate(zip(before.split("\n"), after.split("\n")), 1):
        if shown != said:
            return "%s, line %d shows %r, and the session prints %r" % (name, number, shown, said)
    return "the sessions print more or less than %s shows" % name if before != after else None


def checked(name: str, is_check: bool) -> bool:
    """Runs the sessions of a page, and writes it or compares; gives whether it is as wanted."""
    with open(os.path.join(TOP, name), encoding="utf-8") as text:
        before = text.read()
    with tempfile.TemporaryDirectory() as folder:
        for linked in ("tools", "examples"):
            os.symlink(os.path.join(TOP, linked), os.path.join(folder, linked))
        os.symlink(PROGRAM, os.path.join(folder, "graphd"))
        after = python_sessions.rewritten(rewritten(before, folder), folder)
    fault = differs(name, before, after) if is_check else None
    if fault:
        print("guide.py: " + fault, file=sys.stderr)
    elif not is_check and before != after:
        with open(os.path.join(TOP, name), "w", encoding="utf-8") as text:
            text.write(after)
    return fault is None


def main() -> int:
    words = sys.argv[1:]
    if "--help" in words or "-h" in words:
        print((__doc__ or "").strip())
        return 0
    is_check = words[:1] == ["--check"]
    names = [os.path.relpath(os.path.abspath(name), TOP) for name in words[is_check:]] or list(PAGES)
    unknown = [name for name in names if not os.path.isfile(os.path.join(TOP, name))]
    if unknown:
        print("guide.py: %s is no page; guide.py --help shows the words" % unknown[0], file=sys.stderr)
        return 2
    if not os.path.exists(PROGRAM):
        print("guide.py: %s is not there: ./graphd build at the top of the repository builds the program" % PROGRAM, file=sys.stderr)
        return 1
    return 0 if all([checked(name, is_check) for name in names]) else 1


if __name__ == "__main__":
    sys.exit(main())
