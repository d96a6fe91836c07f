"""What somebody typed as JSON: whether it is closed, where its members stand, and how a value is laid out."""
from __future__ import annotations

import json
import re
from typing import Any, Dict, List, Optional, Tuple

Span = Tuple[int, int]

TOKEN = re.compile(r'"(?:[^"\\]|\\.)*"|[{}\[\],:]|[^\s{}\[\],:"]+', re.S)


def is_open(text: str) -> bool:
    """Brackets, or a text, are still open."""
    depth = 0
    for token in TOKEN.findall(text):
        depth += (token in "{[") - (token in "}]")
    return depth > 0 or TOKEN.sub("", text).count('"') % 2 == 1


class Spans:
    """Where the members of a JSON text stand, by the names that lead there; the items of its lists, and the texts by what they spell."""

    def __init__(self, text: str) -> None:
        self.tokens = [(m.group(), m.start(), m.end()) for m in TOKEN.finditer(text)]
        self.at = 0
        self.members: Dict[Tuple[str, ...], Optional[Span]] = {}
        self.items: Dict[Tuple[str, ...], List[Span]] = {}
        self.texts: Dict[str, Span] = {}
        self._value(())

    def _take(self) -> Tuple[str, int, int]:
        self.at += 1
        return self.tokens[self.at - 1]

    def _peek(self) -> str:
        return self.tokens[self.at][0]

    def _value(self, path: Tuple[str, ...]) -> int:
        """Goes over one value, and gives where it ends."""
        token, start, end = self._take()
        if token == "{":
            while self._peek() != "}":
                self._member(path)
        elif token == "[":
            items = self.items.setdefault(path, [])
            while self._peek() != "]":
                begin = self.tokens[self.at][1]
                items.append((begin, self._value(path)))
                self._comma()
        else:
            if token.startswith('"'):
                self.texts.setdefault(json.loads(token), (start, end))
            return end
        return self._take()[2]

    def _member(self, path: Tuple[str, ...]) -> None:
        name, start, _ = self._take()
        below = path + (json.loads(name),)
        self._take()
        # a member stands before those within it, and the first of a name counts
        self.members.setdefault(below, None)
        end = self._value(below)
        if self.members[below] is None:
            self.members[below] = (start, end)
        self._comma()

    def _comma(self) -> None:
        if self._peek() == ",":
            self._take()


def spans_of(text: str) -> Spans:
    """The spans of a text that is JSON."""
    return Spans(text)


def underlined(text: str, span: Span) -> str:
    """The line of a text on which a span begins, and under it marks below the span, up to the end of that line."""
    begin = text.rfind("\n", 0, span[0]) + 1
    end = text.find("\n", span[0])
    end = len(text) if end < 0 else end
    return "%s\n%s%s" % (text[begin:end], " " * (span[0] - begin), "^" * max(1, min(span[1], end) - span[0]))


def laid_out(value: Any, width: int = 96, indent: int = 0) -> str:
    """A value as indented JSON, where what fits on a line stands on one."""
    flat = json.dumps(value, ensure_ascii=False)
    if len(flat) + indent <= width or not isinstance(value, (list, dict)) or not value:
        return flat
    inner = " " * (indent + 2)
    if isinstance(value, dict):
        parts = ["%s%s: %s" % (inner, json.dumps(name, ensure_ascii=False), laid_out(part, width, indent + 2)) for name, part in value.items()]
        return "{\n%s\n%s}" % (",\n".join(parts), " " * indent)
    parts = [inner + laid_out(part, width, indent + 2) for part in value]
    return "[\n%s\n%s]" % (",\n".join(parts), " " * indent)
