#!/usr/bin/env python3
"""Proves and builds the program graphd, and says on standard error how far it is.

    build.py [--jobs N]      afterwards crates/graphd/out/graphd is there

The crates below it are proved side by side by the toolchain's gate, over a copy that has these crates alone: as many as there are
processors, or N, as far as their chain and the memory allow. Where the gate keeps what it has proved, as that of some toolchains does, a
run that was stopped goes on where it was. What each crate took is kept in crates/graphd/out/seconds.json; from that the next run says how
long it is to go.

The status is 0 where the program is built, 1 where it was stopped, and else that of the toolchain.
"""
from __future__ import annotations

import argparse
import contextlib
import json
import os
import re
import shutil
import signal
import subprocess
import sys
import tempfile
import threading
import time
from typing import Dict, List, Optional, Tuple

sys.path.insert(0, os.path.dirname(os.path.abspath(__file__)))
from progress import lasting

TOP = os.path.dirname(os.path.dirname(os.path.abspath(__file__)))
PROGRAM = "graphd"
SECONDS = os.path.join(TOP, "crates", PROGRAM, "out", "seconds.json")
# A check takes up to about so many bytes.
ROOM = 3 << 30
# What the toolchain says of a crate that is proved now, or was before.
PROVED = re.compile(r"rt: (\w+) (?:proved$|is kept: )")
# Crates that are done within so many seconds of the first one were proved before.
SOON = 10
# About so many bytes are proved a second, as long as nothing is known of this machine.
PACE = 1500


def crates_of(name: str) -> Dict[str, List[str]]:
    """The crates that a crate stands on, and itself, each with those on which it stands at once."""
    needs = {}
    with open(os.path.join(TOP, "crates.txt"), encoding="utf-8") as text:
        for line in text:
            crate, colon, rest = line.split("#")[0].partition(":")
            if colon:
                needs[crate.split()[0]] = rest.split()
    found: Dict[str, List[str]] = {}
    waiting = [name]
    while waiting:
        crate = waiting.pop()
        if crate in needs and crate not in found:
            found[crate] = [below for below in needs[crate] if below in needs]
            waiting += found[crate]
    return found


def size_of(crate: str) -> int:
    """About how much there is to prove in a crate: the bytes of its code and proofs."""
    files = (os.path.join(folder, name) for part in ("src", "proofs")
             for folder, _, names in os.walk(os.path.join(TOP, "crates", crate, part)) for name in names)
    return 2000 + sum(os.path.getsize(file) for file in files)


def side_by_side() -> int:
    """How many checks run at a time: one for each processor, as far as there is memory."""
    with open("/proc/meminfo", encoding="utf-8") as text:
        free = next(int(line.split()[1]) * 1024 for line in text if line.startswith("MemAvailable"))
    return max(1, min(len(os.sched_getaffinity(0)), free // ROOM))


class Times:
    """What each crate took when it was last proved on this machine, in seconds."""

    def __init__(self, sizes: Dict[str, int]) -> None:
        try:
            with open(SECONDS, encoding="utf-8") as text:
                told = json.load(text)
        except (OSError, ValueError):
            told = {}
        self.seconds: Dict[str, float] = {crate: told[crate] for crate in sizes if isinstance(told.get(crate), (int, float))}
        self.sizes = sizes

    def of(self, crate: str) -> float:
        """What a crate took, or, by its size, what it would have taken."""
        if crate in self.seconds:
            return self.seconds[crate]
        known = sum(self.sizes[each] for each in self.seconds)
        return self.sizes[crate] * sum(self.seconds.values()) / known if known else self.sizes[crate] / PACE

    def keep(self) -> None:
        """Keeps what they took for the next run."""
        os.makedirs(os.path.dirname(SECONDS), exist_ok=True)
        with open(SECONDS, "w", encoding="utf-8") as text:
            json.dump({crate: round(took, 1) for crate, took in sorted(self.seconds.items())}, text, indent=1)


class Progress:
    """Which crates are done, and since when."""

    def __init__(self, jobs: int, is_told: bool = False) -> None:
        self.is_told = is_told
        self.needs = crates_of(PROGRAM)
        self.times = Times({crate: size_of(crate) for crate in self.needs})
        self.jobs = jobs
        self.ended: Dict[str, float] = {}
        self.began = time.monotonic()
        # since when each of the checks that run at a time is at what it does
        self.since = [self.began] * jobs
        self.first: Optional[float] = None
        self.is_terminal = sys.stderr.isatty()

    def add(self, crate: str) -> None:
        """A crate is done."""
        now = time.monotonic()
        if self.first is None:
            # (before that the toolchain read the sources)
            self.first, self.since = now, [now] * self.jobs
        took = now - self.begun(crate, now)
        # (what is done at once was proved before, and tells nothing)
        if now - self.first >= SOON and took >= 1:
            self.times.seconds[crate] = took
        self.ended[crate] = now
        self.tell()

    def ready(self, crate: str) -> float:
        """When the last of the crates below it was done."""
        return max([self.ended[below] for below in self.needs[crate] if below in self.ended] + [self.first or self.began])

    def begun(self, crate: str, now: float) -> float:
        """When the check of a crate that ends now has begun: once all below was done, and a check before it. Which one is not told;
        whichever it was, all checks together took as long."""
        ready = self.ready(crate)
        idle = [since for since in self.since if since <= ready]
        since = max(idle) if idle else min(self.since)
        self.since[self.since.index(since)] = now
        return max(since, ready)

    def to_go(self) -> float:
        """About how long it is to go: what is left for each processor, and no less than the longest chain of what is left."""
        now, left, chains = time.monotonic(), 0.0, {}
        for crate in self.upward():
            took = 0.0 if crate in self.ended else self.times.of(crate)
            left += took
            if took and all(each in self.ended for each in self.needs[crate]):
                took = max(took - (now - self.ready(crate)), took / 10)
            chains[crate] = took + max([chains[each] for each in self.needs[crate]] + [0.0])
        under_way = sum(now - since for since in self.since)
        return max((left - under_way) / self.jobs, max(chains.values()))

    def upward(self) -> List[str]:
        """The crates, each behind those on which it stands."""
        found: Dict[str, None] = {}

        def visit(crate: str) -> None:
            if crate not in found:
                for below in self.needs[crate]:
                    visit(below)
                found[crate] = None
        visit(PROGRAM)
        return list(found)

    def tell(self) -> None:
        """Says how far it is."""
        line = "graphd: %d of %d crates proved, %s" % (len(self.ended), len(self.needs), lasting(time.monotonic() - self.began))
        if not self.ended:
            line += ", reading the sources first"
        elif len(self.ended) < len(self.needs):
            line += ", about %s to go" % lasting(self.to_go())
        sys.stderr.write("\r\033[K" + line if self.is_terminal else line + "\n")
        sys.stderr.flush()

    def tick(self, ended: threading.Event) -> None:
        """Says so again from time to time, for a person who waits."""
        while self.is_terminal and not ended.wait(1):
            self.tell()


def copy_to(folder: str, crates: List[str]) -> None:
    """Makes a repository of these crates alone, without the edits that the prover must refuse."""
    os.makedirs(os.path.join(folder, ".git"))
    for crate in crates:
        shutil.copytree(os.path.join(TOP, "crates", crate), os.path.join(folder, "crates", crate),
                        ignore=lambda at, names: [each for each in ("must-fail", "out") if each in names and os.path.basename(at) == crate])
    shutil.copy(os.path.join(TOP, "HANDLES"), folder)
    with open(os.path.join(TOP, "crates.txt"), encoding="utf-8") as lines:
        named = [line for line in lines if line.strip() and re.split(r"\W", line, maxsplit=1)[0] in crates]
    with open(os.path.join(folder, "crates.txt"), "w", encoding="utf-8") as kept:
        kept.writelines(named)


def prove(folder: str, progress: Progress) -> Tuple[int, Dict[str, str]]:
    """Runs the gate of the toolchain there. Gives its status, and what it said of each crate."""
    words = dict(os.environ, RT_JOBS=str(progress.jobs)) if progress.is_told else dict(os.environ)
    child = subprocess.Popen(["rt", "ci"], cwd=folder, stdin=subprocess.DEVNULL, stdout=subprocess.PIPE, stderr=subprocess.STDOUT,
                             env=words, text=True, errors="replace", start_new_session=True)
    crate, said = "", {"": ""}
    try:
        for line in child.stdout:
            if line.startswith("== "):
                crate = line.split()[1]
            said[crate] = said.get(crate, "") + line.replace(folder, TOP)
            proved = PROVED.match(line)
            if proved:
                crate = ""
                progress.add(proved.group(1))
        return child.wait(), said
    finally:
        with contextlib.suppress(ProcessLookupError):
            os.killpg(child.pid, signal.SIGTERM)


def refusals(text):
    """What the toolchain said of why a crate is not proved, or the end of all that it said."""
    lines = text.splitlines(True)
    found = [line for line in lines if re.search(r"\berror[:[]|: not proved", line)]
    return "".join(lines[:1] + found[:20] if found else lines[-20:])


def main() -> int:
    """Proves all, and builds the program."""
    parser = argparse.ArgumentParser(prog="build", description=__doc__, formatter_class=argparse.RawDescriptionHelpFormatter)
    parser.add_argument("--jobs", type=int, help="how many crates are proved at a time; as many as there are processors, if it is not said")
    jobs = parser.parse_args().jobs
    if shutil.which("rt") is None:
        sys.exit("graphd: the command rt of the Rattle toolchain is not on the PATH")
    progress, ended = Progress(jobs or side_by_side(), jobs is not None), threading.Event()
    sys.stderr.write("graphd: proving %d crates, %d at a time, and building the program, which starts at once the next time\n"
                     % (len(progress.needs), progress.jobs))
    ticker = threading.Thread(target=progress.tick, args=(ended,), daemon=True)
    ticker.start()
    with tempfile.TemporaryDirectory(prefix="graphd-build-") as folder:
        try:
            copy_to(folder, list(progress.needs))
            status, said = prove(folder, progress)
        finally:
            ended.set()
            ticker.join()
            progress.times.keep()
        if status == 0:
            shutil.copy2(os.path.join(folder, "crates", PROGRAM, "out", PROGRAM), os.path.dirname(SECONDS))
    if progress.is_terminal:
        sys.stderr.write("\n")
    if status != 0:
        failed = [crate for crate, text in said.items() if crate and "rt: %s NOT PROVED" % crate in text]
        sys.stderr.write("".join(refusals(said[crate]) for crate in failed or list(said)[-1:]))
        sys.stderr.write("graphd: the program was not built\n")
    return status


def stopped(_number, _frame):
    """Ends this run, and the command that it waits for."""
    sys.exit("\ngraphd: stopped")


if __name__ == "__main__":
    for number in (signal.SIGINT, signal.SIGTERM, signal.SIGHUP):
        signal.signal(number, stopped)
    sys.exit(main())
