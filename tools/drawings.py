"""Diagrams of a store: its schema, and what stands around an object. Graphviz lays them out (`apt-get install graphviz`)."""
from __future__ import annotations

import html
import os
import shutil
import subprocess
import tempfile
from typing import Any, Dict, Iterable, List, Optional, Set, Tuple

from graphd_client import GraphdError, Snapshot
from schema import NAME, OF_ALL, TYPE, VALUES, Property, Type, reverses, schema_of

FONT = "DejaVu Sans"
# What a viewer takes that has not the font by whose widths the diagram was laid out; it is a wide one, so others fit.
FONTS = "DejaVu Sans,Verdana,Helvetica,sans-serif"
INK, SOFT, LINE, HEAD, CENTRE, PAPER = "#1f2933", "#616e7c", "#7b8794", "#dbeafe", "#fde68a", "#ffffff"
HEADER = """digraph store {
  graph [rankdir=LR, bgcolor="%s", pad=0.2, nodesep=0.25, ranksep=0.7, fontname="%s"];
  node [shape=plain, fontname="%s", fontsize=11, fontcolor="%s"];
  edge [color="%s", fontname="%s", fontsize=9, fontcolor="%s", arrowsize=0.7];
""" % (PAPER, FONT, FONT, INK, LINE, FONT, INK)
# A text of a value is cut behind so many characters.
WIDTH = 40
FORMATS = ("svg", "png", "pdf", "dot")


class NotDrawn(GraphdError):
    """A diagram could not be made."""


def rendered(drawing: str, path: str) -> None:
    """Lays a drawing out, and writes it to a file whose name ends with one of the formats."""
    form = os.path.splitext(path)[1][1:]
    if form not in FORMATS:
        raise NotDrawn("%s: the name of a picture ends with .svg, .png, .pdf or .dot" % path)
    if form == "dot":
        data = drawing.encode()
    elif shutil.which("dot") is None:
        raise NotDrawn("Graphviz, which lays diagrams out, is not here: apt-get install graphviz")
    else:
        done = subprocess.run(["dot", "-T" + form, "-Gdpi=%d" % (72 if form == "svg" else 110)], input=drawing.encode(),
                              stdout=subprocess.PIPE, stderr=subprocess.PIPE, check=False)
        if done.returncode != 0:
            raise NotDrawn("Graphviz ended with status %d: %s" % (done.returncode, done.stderr.decode(errors="replace").strip()))
        data = done.stdout
    if form == "svg":
        data = data.replace(b'font-family="%s"' % FONT.encode(), b'font-family="%s"' % FONTS.encode())
    try:
        with open(path, "wb") as file:
            file.write(data)
    except OSError as failed:
        raise NotDrawn("%s: %s" % (path, failed.strerror)) from None


def shown(drawing: str) -> str:
    """Draws into a file of its own, opens that where there is a screen, and says what was done."""
    handle, path = tempfile.mkstemp(prefix="graphd-", suffix=".svg")
    os.close(handle)
    rendered(drawing, path)
    opener = shutil.which("xdg-open")
    if opener and (os.environ.get("DISPLAY") or os.environ.get("WAYLAND_DISPLAY")):
        subprocess.Popen([opener, path], stdout=subprocess.DEVNULL, stderr=subprocess.DEVNULL, start_new_session=True)
        return "%s is drawn, and opened" % path
    return "%s is drawn; there is no screen to open it on" % path


def quoted(text: str) -> str:
    """A text as an id of Graphviz."""
    return '"%s"' % text.replace("\\", "\\\\").replace('"', '\\"')


def cut(text: str, width: int = WIDTH) -> str:
    """A text that is not too long, safe in a label."""
    flat = " ".join(str(text).split())
    return html.escape(flat if len(flat) <= width else flat[:width - 1] + "…")


def table(title: str, small: Optional[str], rows: Iterable[Tuple[str, str]], colour: str, port: str = "") -> str:
    """A label: a title over a line in small letters, and rows of two cells."""
    head = "<b>%s</b>" % title + ('<br/><font point-size="8" color="%s">%s</font>' % (SOFT, small) if small else "")
    body = "".join('<tr><td align="left">%s</td><td align="left"><font color="%s">%s</font></td></tr>' % (left, SOFT, right) for left, right in rows)
    return ('<<table border="1" cellborder="0" cellspacing="0" cellpadding="4" color="%s"><tr><td colspan="2" bgcolor="%s"%s>%s</td></tr>%s</table>>'
            % (LINE, colour, port, head, body))


# ---- the schema

def schema(view: Snapshot, with_system: bool = False) -> str:
    """The types of a store, each with its properties of values, and the properties that lead from one type to another.

    The built-in types are left out, unless `with_system` says otherwise; a system's type to which a property leads is there.
    """
    types = schema_of(view)
    chosen = {each: of for each, of in types.items() if with_system or not each.startswith("/type/")}
    led_to = {each.expects for of in chosen.values() for each in of.properties if each.expects and each.expects not in VALUES}
    reverse = reverses(types)
    lines = [HEADER]
    for name in [*chosen, *sorted(led_to - chosen.keys())]:
        lines.append("  %s [label=%s];\n" % (quoted(name), type_label(types.get(name, Type(name, None)), name in chosen)))
    for of in chosen.values():
        leading = [(each, reverse.get(each.id)) for each in of.properties if each.expects in led_to and each.master is None]
        # (those that lead back to the type itself share one line: several would lie over one another)
        lines += [schema_edge([pair]) for pair in leading if pair[0].expects != of.id]
        own = [pair for pair in leading if pair[0].expects == of.id]
        lines += [schema_edge(own)] if own else []
    if not chosen:
        lines.append('  "none" [label="the store has no types of its own"];\n')
    return "".join(lines) + "}\n"


def type_label(of: Type, with_rows: bool) -> str:
    """A type, with its properties of values and those that lead to any object."""
    rows = [(cut(each.key), cut((each.expects or "any object").rsplit("/", 1)[-1]) + ("" if each.is_unique else ", many"))
            for each in of.properties if each.master is None and (each.expects is None or each.has_values)] if with_rows else []
    return table(cut(of.id), cut(of.name) if of.name else None, rows, HEAD)


def schema_edge(leading: List[Tuple[Property, Optional[Property]]]) -> str:
    """A line for properties that lead from one type to another, each with its other direction where it has one."""
    said = []
    for each, back in leading:
        said.append(cut(each.key) + ("" if each.is_unique else ", many"))
        if back is not None:
            said.append("← " + cut(back.key) + ("" if back.is_unique else ", many"))
    both = ", dir=both, arrowtail=empty" if any(back is not None for _, back in leading) else ""
    first = leading[0][0]
    # (with room around it, so that the line does not touch it)
    label = '<table border="0" cellborder="0" cellspacing="0" cellpadding="5"><tr><td>%s</td></tr></table>' % "<br/>".join(said)
    return "  %s -> %s [label=<%s>%s];\n" % (quoted(first.of), quoted(first.expects or ""), label, both)


# ---- what stands around an object

class Around:
    """What stands around an object, up to a depth, with at most so many objects for each property."""

    def __init__(self, view: Snapshot, depth: int, most: int) -> None:
        self.view, self.depth, self.most = view, depth, most
        self.types = schema_of(view)
        self.reverse = reverses(self.types)
        self.drawn: Set[Tuple[str, str, str]] = set()
        self.nodes: Dict[str, str] = {}
        self.lines: List[str] = []

    def draw(self, of: str) -> str:
        """The drawing around the object with this id."""
        known = [self.basics(of)]
        self.node(known[0], is_centre=True)
        for _ in range(self.depth):
            known = [each for row in known for each in self.neighbours(row)]
        return HEADER + "".join(self.nodes.values()) + "".join(self.lines) + "}\n"

    def basics(self, of: str) -> Dict[str, Any]:
        """The id, the name and the types of an object."""
        word = "guid" if of.startswith("#") else "id"
        row = self.view.read({word: of, "guid": None, **self.asked()})
        if row is None:
            raise NotDrawn("there is no object %s" % of)
        return dict(row, id=row.get("id", of))

    @staticmethod
    def asked() -> Dict[str, Any]:
        return {NAME: [], "id:/type/object/id": None, TYPE: [{"id": None, "optional": True}]}

    def node(self, row: Dict[str, Any], is_centre: bool = False) -> None:
        """An object: its name, its id, and, in the middle, its values."""
        if row["guid"] in self.nodes:
            return
        name, of = row[NAME], row["id:/type/object/id"]
        values = self.values(row) if is_centre else []
        label = table(cut(name[0] if name else of), cut(of, 60) if name else None, values, CENTRE if is_centre else HEAD)
        self.nodes[row["guid"]] = "  %s [label=%s];\n" % (quoted(row["guid"]), label)

    def properties(self, row: Dict[str, Any]) -> List[Property]:
        """The properties of the object's types."""
        return [each for of in row[TYPE] if of["id"] in self.types and of["id"] != OF_ALL for each in self.types[of["id"]].properties]

    def values(self, row: Dict[str, Any]) -> List[Tuple[str, str]]:
        """The values that an object has: the first of each property, and how many more there are."""
        rows = []
        for each in self.properties(row):
            if each.has_values:
                found = self.view.read({"guid": row["guid"], each.id: [{"value": None, "optional": True}]})[each.id]
                if found:
                    more = " and %d more" % (len(found) - 1) if len(found) > 1 else ""
                    rows.append((cut(each.key), cut(found[0]["value"]) + more))
        return rows

    def neighbours(self, row: Dict[str, Any]) -> List[Dict[str, Any]]:
        """Draws what an object leads to and what leads to it, and gives those that were not there before."""
        new = []
        for each in self.properties(row):
            if not each.has_values:
                new += self.group(row, each.id, each.master or each.id, each.key, each.master is not None)
        # (what leads to the object by a property without another direction)
        ids = {of["id"] for of in row[TYPE]}
        for of in self.types.values():
            for each in of.properties:
                if each.expects in ids and each.master is None and each.id not in self.reverse and not each.id.startswith("/type/"):
                    new += self.group(row, "!" + each.id, each.id, each.key, True)
        return new

    def group(self, row: Dict[str, Any], word: str, master: str, said: str, is_back: bool) -> List[Dict[str, Any]]:
        """Draws the objects at the other end of one property, behind a node with its name."""
        form = dict(self.asked(), guid=None, optional=True, limit=self.most + 1)
        found = self.view.read({"guid": row["guid"], word: [form]})[word]
        links = [((there["guid"], row["guid"]) if is_back else (row["guid"], there["guid"])) + (master,) for there in found[:self.most]]
        fresh = [there for there, link in zip(found, links) if link not in self.drawn]
        self.drawn.update(links)
        if not fresh:
            return []
        middle = "%s %s" % (row["guid"], word)
        self.lines.append('  %s [label=%s, shape=box, style="rounded,filled", fillcolor="%s", color="%s", fontsize=9, height=0.2, width=0.2, margin="0.07,0.03"];\n'
                          % (quoted(middle), quoted(said), PAPER, LINE))
        self.lines.append(edge(middle, row["guid"], True) if is_back and word.startswith("!") else edge(row["guid"], middle, False))
        new = [there for there in fresh if there["guid"] not in self.nodes]
        for there in fresh:
            self.node(there)
            self.lines.append(edge(there["guid"], middle, False) if is_back and word.startswith("!") else edge(middle, there["guid"], True))
        if len(found) > self.most:
            self.lines.append('  %s [label="and more", shape=box, penwidth=0, margin="0.06,0.02", height=0.2, width=0.2, fontsize=9, fontcolor="%s"];\n' % (quoted(middle + " more"), SOFT))
            self.lines.append("  %s -> %s [style=dashed, arrowhead=none];\n" % (quoted(middle), quoted(middle + " more")))
        return new


def edge(tail: str, head: str, has_head: bool) -> str:
    """A line between two nodes."""
    return "  %s -> %s%s;\n" % (quoted(tail), quoted(head), "" if has_head else " [arrowhead=none]")


def around(view: Snapshot, of: str, depth: int = 1, most: int = 8) -> str:
    """What stands around an object, up to a depth; of each property so many objects at most, and a word where there are more."""
    return Around(view, depth, most).draw(of)
