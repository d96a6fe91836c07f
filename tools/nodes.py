"""Nodes that hand out batches and take them, by `graphd follow`, and what a store is dumped as (docs/FOLLOW.md, docs/DUMP.md)."""
from __future__ import annotations

import json
import shlex
from typing import Any, Dict, List, Optional, Tuple

from graphd_client import PROGRAM, Ended, GraphdError, Pipe, run

# The number of batches that no store has; asking from there tells how many there are.
BEHIND_ALL = 4294967295


class Refusal(GraphdError):
    """A node refused a line."""

    def __init__(self, name: str, said: Dict[str, Any]) -> None:
        super().__init__("%s refused: %s %s" % (name, said.get("error"), json.dumps(said.get("info"), sort_keys=True)))


class Node:
    """A node that runs: over a file of this machine, or by a command."""

    def __init__(self, name: str) -> None:
        self.name = name
        self.pipe = Pipe(shlex.split(name) if " " in name else [PROGRAM, "follow", "--file", name])

    def line(self, event: Dict[str, Any]) -> Dict[str, Any]:
        """What the node answers to a line."""
        said: Dict[str, Any] = json.loads(self.pipe.ask(json.dumps(event).encode() + b"\n")[0])
        return said

    def asked(self, event: Dict[str, Any]) -> Any:
        """The result of a line that is not refused."""
        said = self.line(event)
        if "result" not in said:
            raise Refusal(self.name, said)
        return said["result"]

    def batches(self) -> int:
        """How many batches the node has."""
        said = self.line({"ask": {"from": BEHIND_ALL, "most": 1}})
        if said.get("error") != "CursorAhead":
            raise Refusal(self.name, said)
        have: int = said["info"]["have"]
        return have

    def __enter__(self) -> Node:
        return self

    def __exit__(self, *_: Any) -> None:
        self.pipe.close()


def dump_of(path: str, program: Optional[str] = None) -> Tuple[List[bytes], int]:
    """The lines of a store's dump, without the last one, which tells how many batches there are, and that number.

    `Ended`, with the status of the program, where it gives no dump.
    """
    done = run(["dump", "--file", path], b"", program)
    if done.returncode != 0:
        raise Ended(done.returncode)
    lines = done.stdout.splitlines()
    return lines[:-1], int(lines[-1].split()[1])
