"""What is asked of cities and countries in several languages: each title with its query."""
from __future__ import annotations

from typing import Any, Dict, List

TEXTS: List[Dict[str, Any]] = [{"lang": None, "value": None, "optional": True}]
QUESTIONS: Dict[str, Dict[str, Any]] = {
    "the English names, in their order": {"type": "/geo/city", "id": None, "name": None, "sort": "name"},
    "all names": {"type": "/geo/city", "id": None, "name": TEXTS},
    "the cities with a German name that begins with w": {"type": "/geo/city", "id": None, "de:name": {"lang": "/lang/de", "value~=": "w*"}},
    "the city that is Vienne in French": {"type": "/geo/city", "id": None, "name": {"lang": "/lang/fr", "value": "Vienne"}},
    "the cities that are Wien in English": {"type": "/geo/city", "id": None, "name": "Wien"},
    "the cities without a French name": {"type": "/geo/city", "id": None, "name": {"lang": "/lang/fr", "value": None, "optional": "forbidden"}},
}
OF_TRIPLES: Dict[str, Dict[str, Any]] = {
    "what the cities are called": {"type": "/geo/city", "id": None, "called": TEXTS, "population": None},
    "the countries in French, with their cities in German": {
        "type": "/geo/country", "id": None, "name": {"lang": "/lang/fr", "value": None, "optional": True},
        "cities": [{"id": None, "name": {"lang": "/lang/de", "value": None}}]},
}


def ordered(value: Any) -> Any:
    """An answer whose lists within a row are in an order that does not depend on which was written first."""
    if isinstance(value, dict):
        return {name: ordered(part) for name, part in value.items()}
    return sorted(map(ordered, value), key=repr) if isinstance(value, list) else value
