"""Texts as keys, and keys as texts: `$` and four hexadecimal digits stand for a character that a key cannot have."""
from __future__ import annotations

import re

LONGEST = 64
ESCAPES = re.compile(r"(?:\$[0-9A-F]{4})+")


class BadKey(ValueError):
    """A text makes no key."""


def key_of(text: str) -> str:
    """A text as a key.

    >>> key_of("libstdc++6"), key_of("z_1-a"), key_of("\U0001F600")
    ('libstdc$002B$002B6', 'z_1-a', '$D83D$DE00')
    >>> key_of("")
    Traceback (most recent call last):
        ...
    keys.BadKey: '' makes a key of 0 bytes; it has 1 to 64
    """
    key = "".join(c if c.isascii() and (c.isalnum() or c in "_-") else escaped(c) for c in text)
    if not 1 <= len(key) <= LONGEST:
        raise BadKey("%r makes a key of %d bytes; it has 1 to %d" % (text, len(key), LONGEST))
    return key


def escaped(character: str) -> str:
    """A character as one or two escapes, of its UTF-16."""
    data = character.encode("utf-16-be")
    return "".join("$%04X" % int.from_bytes(data[n:n + 2], "big") for n in range(0, len(data), 2))


def text_of(key: str) -> str:
    """The text that makes a key; the key itself where none does.

    >>> text_of("libstdc$002B$002B6"), text_of("$D83D$DE00"), text_of("$D83D"), text_of("a$b")
    ('libstdc++6', '\U0001F600', '$D83D', 'a$b')
    >>> is_text("libstdc$002B$002B6"), is_text("a$b"), is_text("a$0062")
    (True, False, False)
    """
    def plain(found: re.Match) -> str:
        return bytes.fromhex(found.group().replace("$", "")).decode("utf-16-be")
    try:
        return ESCAPES.sub(plain, key)
    except UnicodeDecodeError:
        return key


def is_text(key: str) -> bool:
    """The key is made by its text."""
    try:
        return key_of(text_of(key)) == key
    except BadKey:
        return False
