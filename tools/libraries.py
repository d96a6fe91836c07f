"""Libraries that a tool can use, and go without: which are here, and Debian's Python, which has those of Debian."""
from __future__ import annotations

import importlib.util
import os
import subprocess
import sys
from typing import Iterable, List

# Debian's Python, where another one comes first on the path.
DEBIANS = "/usr/bin/python3"


def lacking(names: Iterable[str]) -> List[str]:
    """Those of these modules that this Python has not.

    >>> lacking(["json", "no_such_module"])
    ['no_such_module']
    """
    return [name for name in names if importlib.util.find_spec(name) is None]


def by_debians(names: Iterable[str]) -> None:
    """Goes on by Debian's Python, from the start and with the same words, where that has more of these modules than this one."""
    here = lacking(names)
    if not here or os.path.realpath(sys.executable) == os.path.realpath(DEBIANS) or not os.path.exists(DEBIANS):
        return
    asks = "import importlib.util as u, sys; print(sum(u.find_spec(name) is None for name in sys.argv[1:]))"
    said = subprocess.run([DEBIANS, "-c", asks, *here], stdout=subprocess.PIPE, stderr=subprocess.DEVNULL, text=True, check=False)
    if said.returncode == 0 and int(said.stdout) < len(here):
        os.execv(DEBIANS, [DEBIANS, *sys.argv])
