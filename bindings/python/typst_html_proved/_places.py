"""Paths of items in JSON, found by the number of their list, or as the first value that does not have the form.

A path has the names and the indices that lead to a value, from the outside in: `("items", 2, 3, 0)` leads to
`document["items"][2][3][0]`.
"""

from __future__ import annotations

import json
from itertools import chain
from typing import Any, Callable, Final, Iterable, Iterator, Mapping, NamedTuple, Sequence, Union

ItemPath = tuple[Union[str, int], ...]
"""The names and the indices that lead to a value in JSON, from the outside in."""

DEEPEST: Final = 127
"""The greatest number of nested lists and objects in JSON."""

LISTS: Final = ("items", "footnotes", "head")
"""The members of a document that hold items or nodes, in the order in which they are read."""


class Spot(NamedTuple):
    """A value in the position of an item or of a list of items, with its path."""

    path: ItemPath
    value: Any
    number: int
    """The number of its list; for a value that is no list, that of the last list before."""


def shown(path: ItemPath) -> str:
    """Returns a path as it is written in Python.

    >>> shown(("items", 2, 3, 0))
    'items[2][3][0]'
    """
    return "".join(f"[{step}]" if isinstance(step, int) else f".{step}" for step in path).lstrip(".")


def _is_list(value: object) -> bool:
    return isinstance(value, (list, tuple))


def _is_text(value: object) -> bool:
    return isinstance(value, str)


def _is_location(value: object) -> bool:
    return isinstance(value, int) and not isinstance(value, bool) and 0 <= value < 1 << 64


def _are_attributes(value: Any) -> bool:
    return _is_list(value) and all(_is_list(pair) and len(pair) == 2 and all(map(_is_text, pair)) for pair in value)


def _or_null(fits: Callable[[Any], bool]) -> Callable[[Any], bool]:
    return lambda value: value is None or fits(value)


Forms = Mapping[str, Sequence[Sequence[Callable[[Any], bool]]]]
"""The forms of the fields behind an item's kind."""

ITEMS: Final[Forms] = {
    "text": [[_is_text]], "space": [[]], "break": [[]], "hole": [[]], "start": [[_is_location], [_is_location] * 2],
    "end": [[_is_location]], "block": [[_is_list]], "box": [[_is_list]], "el": [[_is_text, _are_attributes, _is_list]],
}  # fmt: skip

NODES: Final[Forms] = {kind: ITEMS[kind] for kind in ("text", "el", "start", "end")}

ITEMS_OF_DOCUMENTS: Final[Forms] = {
    **ITEMS, "start": [*ITEMS["start"], [_is_location, _or_null(_is_location), _is_text]],
    "el": [*ITEMS["el"], [_is_text, _are_attributes, _are_attributes, _is_list]],
    "place": [[_is_text]], "link": [[_is_text]], "role": [[_or_null(_is_text), lambda item: True]],
}  # fmt: skip


def _is_item(value: Any, forms: Forms) -> bool:
    """Returns whether a value is an item of one of these forms, whatever its body holds."""
    if not _is_list(value) or not value or not _is_text(value[0]) or value[0] not in forms:
        return False
    fields = value[1:]
    return any(len(form) == len(fields) and all(fits(it) for fits, it in zip(form, fields)) for form in forms[value[0]])


def _inside(path: ItemPath, values: Sequence[Any]) -> Iterator[tuple[ItemPath, Any]]:
    """Returns the values of a list, each with its path."""
    return ((path + (at,), value) for at, value in enumerate(values))


def _body(path: ItemPath, value: Any) -> Iterator[tuple[ItemPath, Any]]:
    """Returns the items in an item, each with its path."""
    kind = value[0] if _is_list(value) and value and _is_text(value[0]) else ""
    last = len(value) - 1 if kind else 0
    if kind == "role" and last == 2:
        return iter([(path + (2,), value[2])])
    if last in {"el": (3, 4), "block": (1,), "box": (1,)}.get(kind, ()) and _is_list(value[last]):
        return _inside(path + (last,), value[last])
    return iter(())


def _listed(path: ItemPath, items: Any) -> Iterator[tuple[ItemPath, Any]]:
    """Returns the items of a list, or the value itself if it is no list, each with its path."""
    return _inside(path, items) if _is_list(items) else iter([(path, items)])


def _outermost(kind: str, given: Any) -> Iterator[tuple[ItemPath, Any]]:
    """Returns the outermost items, each with its path."""
    if kind == "tree":
        return iter([((), given)])
    if kind in ("items", "fragment"):
        return _listed((), given)
    return chain.from_iterable(_listed((name,), given.get(name, [])) for name in LISTS)


def _spots(kind: str, given: Any) -> Iterator[Spot]:
    """Returns each value in the position of an item, in the order of the opening brackets."""
    number, levels = 0, [_outermost(kind, given)]
    while levels:
        for path, value in levels[-1]:
            number += _is_list(value)
            yield Spot(path, value, number)
            levels.append(_body(path, value))
            break
        else:
            levels.pop()


def numbered(kind: str, given: Any, numbers: Iterable[int]) -> dict[int, Spot]:
    """Returns the items whose lists have these numbers."""
    wanted, found = set(numbers) - {0}, {}
    for spot in _spots(kind, given) if wanted else ():
        if spot.number in wanted:
            found[spot.number] = spot
            wanted.remove(spot.number)
            if not wanted:
                break
    return found


def _levels(value: Any) -> int:
    """Returns the number of nested lists in an item, apart from those in its body."""
    return 3 if value[0] == "el" and any(value[2:-1]) else 2 if value[0] in ("el", "block", "box") else 1


def is_too_deep(spot: Spot) -> bool:
    """Returns whether an item, its attributes or its body are deeper than JSON is read."""
    return _is_item(spot.value, ITEMS_OF_DOCUMENTS) and len(spot.path) + _levels(spot.value) > DEEPEST


def _fits(name: str, document: Mapping[str, Any]) -> bool:
    """Returns whether a document may have that member. Lists of items and nodes are checked later."""
    value = document[name]
    if name in ("authors", "keywords"):
        return _is_list(value) and all(map(_is_text, value))
    if name in ("title", "description", "lang", "region"):
        return _is_text(value) and (name != "region" or "lang" in document)
    return name in LISTS


def names(given: Any) -> list[str]:
    """Returns the names of places in a document, in the order of their locations, which are counted from 1.

    >>> names({"items": [["link", "b"], ["block", [["place", "a"], ["place", "b"]]]]})
    ['b', 'a']
    """
    values = (spot.value for spot in _spots("document", given) if spot.path[0] != "head")
    return list(dict.fromkeys(it[1] for it in values if it[0] in ("place", "link")))


def _forms(kind: str, path: ItemPath) -> Forms:
    """Returns the forms of items at that path."""
    if kind == "tree":
        return NODES if path else {"el": NODES["el"]}
    if kind == "items":
        return ITEMS
    return NODES if kind == "document" and path[0] == "head" else ITEMS_OF_DOCUMENTS


def left(kind: str, given: Any) -> Spot | None:
    """Returns the first value that does not have the form or is too deep, or `None` if there is none.

    >>> left("items", [["space"], ["text", 1]])
    Spot(path=(1,), value=['text', 1], number=2)
    """
    if kind == "document":
        if not isinstance(given, dict):
            return Spot((), given, 0)
        for name in sorted(given):
            if not _fits(name, given):
                return Spot((name,), given[name], 0)
    tagged = ""
    for spot in _spots(kind, given):
        if not _is_item(spot.value, _forms(kind, spot.path)) or is_too_deep(spot):
            return spot
        # (the tags of an input have names or numbers, never both)
        tags = {"start": "numbers", "end": "numbers", "place": "names", "link": "names"}.get(spot.value[0], tagged)
        if tagged not in ("", tags):
            return spot
        tagged = tags
    return None


def value_of(data: bytes) -> Any:
    """Returns the value that JSON spells. Numbers that the library reads as no whole numbers are floats: -0, and those that
    are far too large."""
    whole = lambda digits: float(digits) if digits == "-0" or len(digits) > 20 else int(digits)
    return json.loads(data.decode(), parse_int=whole)
