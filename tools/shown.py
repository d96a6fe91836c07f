#!/usr/bin/env python3
"""Writes the examples that docs/WRITING.md shows from the files of examples/.

    shown.py            writes the page
    shown.py --check    fails where the page is not what the files give

Behind a line that ends with `examples/NAME`: stands a block of four blanks; it shows the requests of NAME.in and, below each, what
NAME.out answers: the result, or the error with its info.
"""
import json
import os
import re
import sys

TOP = os.path.dirname(os.path.dirname(os.path.abspath(__file__)))
PAGE = os.path.join(TOP, "docs", "WRITING.md")
BLOCK = re.compile(r"(`examples/(\w+)`:\n)(?:\n(?:    .*\n)+)?")


def compact(value):
    return json.dumps(value, ensure_ascii=False, separators=(",", ":"))


def request(line):
    """The word of a line, and its query, or `queries` and the list of them; the scope of a write stands before it."""
    asked = json.loads(line)
    word = "read" if "read" in asked else "write"
    asks, scope = asked[word], asked[word].get("scope")
    shown_asks = "queries " + compact(asks["queries"]) if "queries" in asks else compact(asks["query"])
    return "%-5s %s%s" % (word, "scope %s " % scope if scope else "", shown_asks)


def answer(line):
    reply = json.loads(line)
    if "error" in reply:
        return "      %s %s" % (reply["error"], compact(reply["info"]))
    return "      " + compact(reply["result"])


def lines_of(name):
    with open(os.path.join(TOP, "examples", name), encoding="utf-8") as text:
        return [line for line in text.read().split("\n") if line]


def shown(found):
    asked, said = lines_of(found.group(2) + ".in"), lines_of(found.group(2) + ".out")
    if len(asked) != len(said):
        sys.exit("shown.py: examples/%s has %d lines and %d replies" % (found.group(2), len(asked), len(said)))
    return found.group(1) + "\n" + "".join("    %s\n    %s\n" % (request(line), answer(reply)) for line, reply in zip(asked, said))


def main():
    if sys.argv[1:] == ["--help"]:
        print(__doc__.strip())
        return 0
    if sys.argv[1:] not in ([], ["--check"]):
        print("shown.py: no such words; shown.py --help shows them", file=sys.stderr)
        return 2
    with open(PAGE, encoding="utf-8") as text:
        before = text.read()
    after = BLOCK.sub(shown, before)
    if sys.argv[1:] == ["--check"]:
        if before != after:
            sys.exit("shown.py: docs/WRITING.md does not show what the examples give: run tools/shown.py")
    elif before != after:
        with open(PAGE, "w", encoding="utf-8") as text:
            text.write(after)
    return 0


if __name__ == "__main__":
    sys.exit(main())
