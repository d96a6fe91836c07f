"""Tables that are loaded, exported and loaded again, by the tools: what the two scripts `again` have in common."""
from __future__ import annotations

import os
import subprocess
import sys
from typing import Dict

TOOLS = os.path.join(os.path.dirname(os.path.dirname(os.path.realpath(__file__))), "tools")
# The kinds of tables that are exported.
FORMS = ("csv", "jsonl")


def ran(program: str, tool: str, *words: str) -> None:
    """Runs a tool, which must end well."""
    done = subprocess.run([os.path.join(TOOLS, tool), "--program", program, *words], stdout=subprocess.PIPE, stderr=subprocess.STDOUT,
                          text=True, check=False)
    if done.returncode != 0:
        sys.exit("again: %s %s ended with status %d: %s" % (tool, " ".join(words), done.returncode, done.stdout))


def exported(program: str, folder: str, store: str, types: Dict[str, str], form: str) -> None:
    """Exports these types of a store, each under a name, as tables of a form with their mappings."""
    for name, of in types.items():
        ran(program, "export", "--as", form, "--table", os.path.join(folder, "%s.%s" % (name, form)),
            "--mapping", os.path.join(folder, "%s_%s.json" % (name, form)), of, "--file", store)


def loaded(program: str, folder: str, types: Dict[str, str], form: str) -> str:
    """The path of a new store, into which the tables that were exported are loaded."""
    store = os.path.join(folder, "store_" + form)
    for name in types:
        ran(program, "load", os.path.join(folder, "%s_%s.json" % (name, form)), os.path.join(folder, "%s.%s" % (name, form)), "--file", store)
    return store


def text_of(path: str) -> str:
    """The text of a file."""
    with open(path, encoding="utf-8", newline="") as file:
        return file.read()
