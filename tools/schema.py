"""The types and properties that a store has."""
from __future__ import annotations

from dataclasses import dataclass, field
from typing import Any, Dict, List, Optional

# The types whose properties have values, and are no objects.
VALUES = ("/type/text", "/type/int", "/type/boolean", "/type/datetime")
# What every object has.
OF_ALL = "/type/object"
NAME, TYPE, KEY = "/type/object/name", "/type/object/type", "/type/object/key"
ROWS = 1000


@dataclass
class Property:
    """A property, by its id: what it leads to, whether it has one answer at most, and of which other one it is the other direction."""

    id: str
    expects: Optional[str]
    is_unique: bool
    master: Optional[str]

    @property
    def of(self) -> str:
        """The id of the type to which it belongs."""
        return self.id.rsplit("/", 1)[0] or "/"

    @property
    def key(self) -> str:
        """Its key in that type."""
        return self.id.rsplit("/", 1)[1]

    @property
    def has_values(self) -> bool:
        """It leads to values, and not to objects."""
        return self.expects in VALUES


@dataclass
class Type:
    """A type, by its id, with its properties in the order in which they were made."""

    id: str
    name: Optional[str]
    properties: List[Property] = field(default_factory=list)


def schema_of(view: Any) -> Dict[str, Type]:
    """The types of a store, or of a store as it was, by their ids. What has no path of keys is left out."""
    named = view.read_all([{"type": "/type/type", "id": None, "name": [], "limit": ROWS}])
    types = {row["id"]: Type(row["id"], row["name"][0] if row["name"] else None) for row in named if row["id"].startswith("/")}
    asked = {"type": "/type/property", "id": None, "expected_type": None, "unique": None, "master_property": None, "limit": ROWS}
    for row in view.read_all([asked]):
        if row["id"].startswith("/"):
            made = Property(row["id"], row["expected_type"], bool(row["unique"]), row["master_property"])
            if made.of in types:
                types[made.of].properties.append(made)
    return types


def reverses(types: Dict[str, Type]) -> Dict[str, Property]:
    """For each property that has another direction, by its id, that one."""
    return {each.master: each for of in types.values() for each in of.properties if each.master}
