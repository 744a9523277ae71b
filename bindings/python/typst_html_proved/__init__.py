"""Writes HTML text of documents with a library of proved code.

>>> write([element("p", "Salt & vinegar")])[-45:]
'<body><p>Salt &amp; vinegar</p></body></html>'
>>> try:
...     write(["a", element("br", "no")])
... except Refused as refused:
...     print(refused, refused.item)
a void element has a child (refusal 12 at 2, items[1]) ['el', 'br', [], [['text', 'no']]]

A document is a list of items. The functions `text`, `element`, `block`, `box`, `place`, `link`, `role`, `start` and
`end` make items, and `SPACE`, `BREAK` and `HOLE` are items; a `str` in place of an item is a text. Items are lists that
JSON can hold, so other code may make them, and a checker of types accepts `Node(["text", "a"])` as one. The call that
gets a value that is no item raises `BadInput`, which has what is wrong and where:

>>> element("p", "a", [element("b")])
Traceback (most recent call last):
    ...
typst_html_proved.BadInput: bad input at element(body[1]): an item is a list of items: give each of them

`mypy --strict` refuses each argument that is refused for its type.

With `links=True`, `write` gives links the `href` of their destination. If a destination is missing, it raises an
error that has the list of these links, and the text.

>>> try:
...     page = write([start(1, 7), element("a", "there"), end(1)], links=True)  # nothing starts 7
... except DeadLinks as dead:
...     print(dead, dead.links)
...     page = dead.text
links lead nowhere (1, the first at 2) (DeadLink(span=2, destination=7, path=('items', 1)),)

`check` reports what is wrong in a page, written here or elsewhere: links within it that lead nowhere, repeated ids, and
nodes that make browsers build another tree. `links` lists the ids and the links of a page, to check links between pages.

Any number of threads may make calls, and these run at the same time.
"""

from __future__ import annotations

import json
from codecs import BOM_UTF8
from dataclasses import dataclass, field
from itertools import chain
from types import MappingProxyType
from typing import Any, Final, Iterable, Iterator, Literal, Mapping, Sequence, Union, ValuesView, overload

from ._library import VERSION, Reply, Status, called
from ._pages import (
    DeadFragment, Findings, Misnested, PageId, PageLink, PageLinks, PageName, Place, RepeatedId, findings_of, links_of,
)  # fmt: skip
from ._places import DEEPEST, ITEMS_OF_DOCUMENTS, LISTS, ItemPath, is_too_deep, left, names, numbered, shown, value_of
from ._words import WORDS

__all__ = [
    "BREAK", "HOLE", "SPACE", "VERSION", "Attrs", "BadInput", "DeadFragment", "DeadLink", "DeadLinks", "Failure", "Findings",
    "Info", "Item", "ItemPath", "Items", "Kind", "Level", "Mark", "Misnested", "Node", "OtherLibrary", "OutOfMemory", "PageId", "PageLink",
    "PageLinks", "PageName", "Place", "Refused", "RepeatedId", "Texts", "WORDS", "block", "box", "check", "element", "end", "link", "links",
    "place", "role", "start", "text", "unused", "write", "write_fragment", "write_fragment_json", "write_json", "write_tree",
]  # fmt: skip

__version__: Final = "0.8.0"
"""The version of this package. `VERSION` is the version of the library's calls."""

for _kind in (DeadFragment, Findings, Misnested, PageId, PageLink, PageLinks, PageName, Place, RepeatedId):
    _kind.__module__ = __name__


class Node(list[object]):
    """An item in a list, such as `["text", t]` or `["el", tag, [[name, value], ..], [item, ..]]`.

    >>> write_tree(Node(["el", "p", [], [["text", "a"]]]))
    '<!DOCTYPE html><p>a</p>'
    """


class Mark(tuple[object, ...]):
    """An item without a body that can't be changed: `SPACE`, `BREAK` or `HOLE`.

    >>> element("p", "a", BREAK, "b")
    ['el', 'p', [], [['text', 'a'], ('break',), ['text', 'b']]]
    """

    __slots__ = ()


Item = Union[str, Node, Mark]
"""An item: a text, or a list that spells an item."""

Items = Union[Sequence[Item], Iterator[Item], ValuesView[Item]]
"""Items in their order. A `str` is one text."""

Texts = Union[list[str], tuple[str, ...]]
"""Texts in their order."""

Attrs = Union[Mapping[str, str], Iterable[tuple[str, str]]]
"""Names and values, in their order."""

Level = Literal["block", "inline"]
"""The position of the text of `write_fragment` in a page: on lines of its own, or in a line."""

LEVELS: Final[Mapping[str, int]] = MappingProxyType({"block": 0, "inline": 1})

Kind = Literal["tree", "items", "document"]
"""The kind of value that JSON spells."""

SPACE: Final = Mark(["space"])
"""A space, as between two words."""

BREAK: Final = Mark(["break"])
"""A line break."""

HOLE: Final = Mark(["hole"])
"""Something that has no place in HTML and is left out."""


class Failure(Exception):
    """There is no text, or none without dead links. Each error that a call raises is one of these.

    >>> try:
    ...     write([element("p q")])
    ... except Failure as failure:
    ...     print(failure)
    a character is not valid in a tag name (refusal 2 at 1, items[0])
    """

    place: Place | None = None
    """The place, if the reason is in a page that is checked."""

    path: ItemPath | None = None
    """The path, if the reason is an item or a value in place of one: the names and indices that lead to it in the caller's
    JSON, or in the JSON that spells the items of `write` or the root of `write_tree`. So `("items", 2, 3, 0)` is the first
    item in the body of an element, which is the third item."""

    item: Any = None
    """The item or value at that path."""


class Refused(Failure):
    """The input breaks a rule of HTML, or holds something where it may not stand. Or a page that is checked is not read: its
    elements are deeper than the limit, say, or its encoding is not known.

    >>> try:
    ...     write([block("a", element("br", "no"))])
    ... except Refused as refused:
    ...     print(refused.number, refused.words, refused.span, refused.path, refused.item)
    12 a void element has a child 3 ('items', 0, 1, 1) ['el', 'br', [], [['text', 'no']]]
    >>> try:
    ...     check("<p>\\n<b>1</b></p>", limit=3)
    ... except Refused as refused:
    ...     print(refused.number, refused.words, refused.place)
    8 a body, or an element of a page, stands deeper than the limit 2:1
    """

    number: int
    """The number of the rule: a key of `WORDS`."""

    span: int
    """The number of the list of the item, counted from 1 by their opening brackets in JSON, those of footnotes after those
    of items; 0 if the refusal has no place. For a page that is checked, the number of bytes before the place."""

    def __init__(
        self, number: int, span: int, place: Place | None = None, path: ItemPath | None = None, item: Any = None
    ) -> None:
        super().__init__(number, span, place)
        self.number, self.span, self.place, self.path, self.item = number, span, place, path, item

    @property
    def words(self) -> str:
        """Returns words for what is wrong."""
        return WORDS.get(self.number, "refused")

    def __str__(self) -> str:
        at = f"{self.span}, {shown(self.path)}" if self.path else self.place or self.span
        return f"{self.words} (refusal {self.number} at {at})"


class BadInput(Failure, ValueError):
    """An argument is wrong: the call does not take its type or value, or it spells nothing that can be written, or it nests
    more than 127 lists; or a page that is checked has bytes that are no text in its encoding.

    >>> try:
    ...     write(["a", None])
    ... except BadInput as bad:
    ...     print(bad.where, "|", bad.what)
    write(items[1]) | an item is None
    >>> try:
    ...     write_json('[["space"],["text",1]]')
    ... except BadInput as bad:
    ...     print(bad.where, "|", bad.what, "|", bad.path, bad.item)
    write_json(data[1]) | a value is not what the form wants | (1,) ['text', 1]
    """

    where: str
    """The call and its argument, or a part of it, such as `write(items[1])`. For input that is no JSON, the line and the
    column; for a page with bytes that are no text, the place of the first."""

    span: int
    """The number of lists of items that are opened in the JSON up to the first value that does not have the form, counted
    as those of a refusal; 0 before the first, or if there is no such value."""

    line: int
    """The line where the input is no JSON, counted from 1; otherwise 0."""

    column: int
    """The column there, counted from 1 in bytes; if the JSON ends too soon, the length of its last line."""

    def __init__(
        self,
        *words: object,
        where: str = "",
        span: int = 0,
        line: int = 0,
        column: int = 0,
        place: Place | None = None,
        path: ItemPath | None = None,
        item: Any = None,
    ) -> None:
        super().__init__(*words)
        self.span, self.line, self.column, self.place, self.path, self.item = span, line, column, place, path, item
        in_json = f"line {line} column {column}" if line else f"{span}" if span else ""
        self.where = where or (str(place) if place else in_json)

    @property
    def what(self) -> str:
        """Returns words for what is wrong."""
        words = "it is no JSON" if self.line else "a value is not what the form wants"
        return ": ".join(map(str, self.args)) or words

    def __str__(self) -> str:
        if self.place:
            return f"bad input: {self.what} at {self.where}"
        at = f" at {self.where}" if self.where else ""
        return f"bad input{at}: {self.what}" if self.args else f"bad input{at}"


@dataclass(frozen=True)
class DeadLink:
    """A link that was to get the `href` of its destination, and leads nowhere.

    >>> try:
    ...     page = write([start(1, 7), element("a", "there"), end(1)], links=True)
    ... except DeadLinks as dead:
    ...     print(*dead.links, dead.links[0].item)
    DeadLink(span=2, destination=7, path=('items', 1)) ['el', 'a', [], [['text', 'there']]]
    """

    span: int
    """The number of its list in the JSON, counted as for a refusal."""
    destination: int
    """The location that it would lead to: its number, or the number of its name among those of the document, counted from
    1."""
    name: str | None = field(default=None, compare=False, repr=False)
    """The name of the place that it would lead to, if it has one."""
    path: ItemPath = field(default=(), compare=False)
    """The path of its `a`, as for a refusal."""
    item: Any = field(default=None, compare=False, repr=False)
    """Its `a`."""


class DeadLinks(Failure):
    """Links were to get the `href` of their destination, and some have a destination that is no place of the document. The
    error has the text all the same.

    >>> try:
    ...     page = write([start(1, 7), element("a", "there")], links=True)
    ... except DeadLinks as dead:
    ...     page = dead.text
    >>> page.split("<body>")[1]
    '<a>there</a></body></html>'
    """

    text: str
    """The text, in which these links have no `href`."""

    links: tuple[DeadLink, ...]
    """The links, in document order: at least one."""

    def __init__(self, text: str, links: tuple[DeadLink, ...]) -> None:
        super().__init__(text, links)
        self.text, self.links = text, links

    @property
    def span(self) -> int:
        """Returns the span of the first link: the number of its list."""
        return self.links[0].span if self.links else 0

    def __str__(self) -> str:
        return f"links lead nowhere ({len(self.links)}, the first at {self.span})"


class OutOfMemory(Failure, MemoryError):
    """An allocation failed. The error is Python's `MemoryError` too.

    >>> issubclass(OutOfMemory, MemoryError)
    True
    """

    def __str__(self) -> str:
        return "out of memory"


class OtherLibrary(Failure):
    """The library replies as no library of this version does. (One that reports another version is not imported.)

    >>> str(OtherLibrary())
    'the library replies as none of version 8 does'
    """

    def __str__(self) -> str:
        return f"the library replies as none of version {VERSION} does"


@dataclass(frozen=True)
class Info:
    """The information about a document, for its head.

    >>> info = Info(title="Tides", authors=["Reed"], lang="de", region="AT")
    >>> "<title>Tides</title>" in write([], info=info)
    True
    """

    title: str | None = None
    description: str | None = None
    authors: Texts = ()
    keywords: Texts = ()
    lang: str | None = None
    """The language, such as `de`."""
    region: str | None = None
    """The region in which the language is spoken, such as `AT`. It is left out if there is no language."""

    def members(self) -> dict[str, Any]:
        """Returns the information in the form that the library reads."""
        given = {
            "title": _known("a title", self.title, "Info(title)"),
            "description": _known("a description", self.description, "Info(description)"),
            "authors": _texts("authors", self.authors),
            "keywords": _texts("keywords", self.keywords),
            "lang": _known("a language", self.lang, "Info(lang)"),
            "region": _known("a region", self.region, "Info(region)") if self.lang is not None else None,
        }
        # An empty list counts as given, so `unused` would name it.
        return {name: value for name, value in given.items() if value not in (None, [])}



# Checks of arguments. `where` is the place that `BadInput` reports; `at` replaces `{}` in it.


def _kind_of(value: object) -> str:
    """Returns the words for a refused value."""
    return "None" if value is None else f"of type {type(value).__name__}"


def _str(what: str, value: object, where: str, at: int = 0) -> str:
    if not isinstance(value, str):
        raise BadInput(f"{what} is {_kind_of(value)}, not a str", where=where.format(at))
    return value


def _known(what: str, value: str | None, where: str) -> str | None:
    return None if value is None else _str(what, value, where)


def _number(what: str, value: object, least: int, most: int, where: str) -> int:
    if not isinstance(value, int) or isinstance(value, bool):
        raise BadInput(f"{what} is {_kind_of(value)}, not an int", where=where)
    if not least <= value <= most:
        raise BadInput(f"{what} is {value}, not from {least} to {most}", where=where)
    return value


def _location(value: object, where: str) -> int:
    return _number("a location", value, 0, (1 << 64) - 1, where)


def _iterated(what: str, value: Any, where: str) -> Iterator[Any]:
    try:
        return iter(value)
    except TypeError:
        raise BadInput(f"{what} are {_kind_of(value)}", where=where) from None


def _texts(what: str, texts: Texts) -> list[str]:
    """Returns the list of texts of an `Info`. Refuses a single text, though its characters are texts."""
    where = f"Info({what})"
    if isinstance(texts, str):
        raise BadInput(f"{what} are one str, not a list of them", where=where)
    each = enumerate(_iterated(what, texts, where))
    return [_str(f"one of the {what}", one, f"Info({what}[{{}}])", at) for at, one in each]


def _item(item: object, where: str, at: int = 0) -> Sequence[object]:
    """Returns the item as a list that JSON can hold."""
    if isinstance(item, str):
        return text(item)
    if isinstance(item, (Node, Mark)):
        return item
    if not isinstance(item, (list, tuple)):
        raise BadInput(f"an item is {_kind_of(item)}", where=where.format(at))
    if not item or not isinstance(item[0], str):
        raise BadInput("an item is a list of items: give each of them", where=where.format(at))
    if item[0] not in ITEMS_OF_DOCUMENTS:
        words = f"an item is a list that begins with {item[0]!r}, which is no kind of item"
        raise BadInput(words, where=where.format(at))
    return list(item)


def _items(items: Iterable[object], where: str) -> list[Sequence[object]]:
    return [_item(item, where, at) for at, item in enumerate(items)]


def _listed(call: str, what: str, items: Items) -> list[Sequence[object]]:
    """Returns the items, the footnotes or the nodes of the head of a document that is an argument of that call."""
    where = f"{call}({what})"
    if isinstance(items, str):
        return [text(items)]
    if isinstance(items, (Node, Mark)):
        raise BadInput(f"{what} are one item, not a list of them", where=where)
    if isinstance(items, Mapping):
        raise BadInput(f"{what} are {_kind_of(items)}", where=where)
    return _items(_iterated(what, items, where), f"{call}({what}[{{}}])")


def _pair(what: str, argument: str, pair: object, at: int) -> list[str]:
    """Returns an attribute or a property of an element."""
    where = f"element({argument}[{at}])"
    if not isinstance(pair, (list, tuple)) or len(pair) != 2:
        raise BadInput(f"{what} is {_kind_of(pair)}, not a pair of a name and a value", where=where)
    name, value = pair
    one = what.split()[-1]
    return [_str(f"the name of {what}", name, where), _str(f"the value of the {one} {name!r}", value, where)]


def _pairs(what: str, listed: str, argument: str, pairs: Attrs) -> list[list[str]]:
    """Returns the attributes or the properties of an element."""
    each = pairs.items() if isinstance(pairs, Mapping) else _iterated(listed, pairs, f"element({argument})")
    return [_pair(what, argument, pair, at) for at, pair in enumerate(each)]


def text(of: str) -> Node:
    """Returns a text, which may hold any characters.

    >>> write_tree(element("p", text("a < b")))
    '<!DOCTYPE html><p>a &lt; b</p>'
    """
    return Node(["text", _str("a text", of, "text(of)")])


def element(tag: str, *body: Item, attrs: Attrs = (), css: Attrs = ()) -> Node:
    """Returns an element with that body. Attributes are a mapping, or pairs of a name and a value, and so are css properties,
    which go into its `style`. If the name of a property is repeated, the last one counts. Trees of `write_tree` have no css.

    >>> element("a", "Home", attrs={"href": "/"})
    ['el', 'a', [['href', '/']], [['text', 'Home']]]
    >>> write([element("p", css={"color": "red"})]).split("<body>")[1]
    '<p style="color: red"></p></body></html>'
    >>> element("p", attrs=["id"])
    Traceback (most recent call last):
        ...
    typst_html_proved.BadInput: bad input at element(attrs[0]): an attribute is of type str, not a pair of a name and a value
    """
    listed = _pairs("an attribute", "attributes", "attrs", attrs)
    styled = _pairs("a property", "properties", "css", css)
    parts: list[object] = [_str("a tag", tag, "element(tag)"), listed, *([styled] if styled else [])]
    return Node(["el", *parts, _items(body, "element(body[{}])")])


def block(*body: Item) -> Node:
    """Returns a block of its own with that body.

    >>> write([block("a"), block("b")]).split("<body>")[1]
    '<div>a</div><div>b</div></body></html>'
    """
    return Node(["block", _items(body, "block(body[{}])")])


def box(*body: Item) -> Node:
    """Returns a box within a line with that body.

    >>> write(["a", box("b")]).split("<body>")[1]
    'a<span style="display: inline-block">b</span></body></html>'
    """
    return Node(["box", _items(body, "box(body[{}])")])


def role(of: str | None, item: Item) -> Node:
    """Returns the item with that role, or without a role if it is `None`. If an item has two around it, the outer one counts.

    >>> write([role("note", element("aside", "a"))]).split("<body>")[1]
    '<aside role="note">a</aside></body></html>'
    """
    given = None if of is None else _str("a role", of, "role(of)")
    return Node(["role", given, _item(item, "role(item)")])


def place(name: str) -> Node:
    """Returns a mark that makes the next item the place of that name, to which links lead.

    A document has places by name or locations by number (`start`, `end`), not both.

    >>> page = write([link("moon"), element("a", "there"), place("moon"), element("h2", "Moon")], links=True)
    >>> page.split("<body>")[1]
    '<a href="#moon">there</a><h2 id="moon">Moon</h2></body></html>'
    """
    return Node(["place", _str("a name", name, "place(name)")])


def link(name: str) -> Node:
    """Returns a mark that makes the next `a` a link to the place of that name, wherever that is: see `place`.

    >>> try:
    ...     page = write([link("moon"), element("a", "there")], links=True)
    ... except DeadLinks as dead:
    ...     print(dead.links[0].name)
    moon
    """
    return Node(["link", _str("a name", name, "link(name)")])


def start(location: int, destination: int | None = None, label: str | None = None) -> Node:
    """Returns the start of a location. If it has a destination, links in it get the `href` of that if `write` resolves
    links. The element there gets the label as its `id`, if links lead to it and it has none.

    >>> there = [start(1, 7), element("a", "there"), end(1)]
    >>> write([*there, start(7), element("h2", "Here"), end(7)], links=True).split("<body>")[1]
    '<a href="#loc-1">there</a><h2 id="loc-1">Here</h2></body></html>'
    >>> start(7, label="here")
    ['start', 7, None, 'here']
    """
    given: list[object] = [_location(location, "start(location)")]
    if destination is not None or label is not None:
        given.append(None if destination is None else _location(destination, "start(destination)"))
    if label is not None:
        given.append(_str("a label", label, "start(label)"))
    return Node(["start", *given])


def end(location: int) -> Node:
    """Returns the end of a location.

    >>> end(7)
    ['end', 7]
    """
    return Node(["end", _location(location, "end(location)")])


def _json(value: Any) -> bytes:
    """Returns the value in JSON. Fails for a text with half of a surrogate pair, which has no UTF-8."""
    return json.dumps(value, ensure_ascii=False, separators=(",", ":")).encode()


class _Given:
    """The input of a call that writes: JSON of the caller, or a value that JSON can hold."""

    OUTSIDE: Final[Mapping[str, int]] = {"tree": 0, "items": 1, "fragment": 1, "document": 2}
    """The least length of paths that lead to items."""

    def __init__(self, call: str, argument: ItemPath, kind: Kind | Literal["fragment"], *, data: bytes = b"", value: Any = None) -> None:
        self.call, self.argument, self.kind, self.is_json = call, argument, kind, value is None
        self.data, self._value = data, value
        if not self.is_json:
            try:
                self.data = _json(value)
            except (TypeError, ValueError, RecursionError) as error:
                raise self._bad_input(0, error) from error

    @property
    def value(self) -> Any:
        """Returns the value that the JSON spells."""
        if self._value is None:
            self._value = value_of(self.data)
        return self._value

    def _where(self, path: ItemPath) -> str:
        """Returns the place that an error reports for a path."""
        if self.kind == "document" and not self.is_json and path and path[0] not in LISTS:
            return f"Info({shown(path)})"
        return f"{self.call}({shown(self.argument + path)})"

    def _without_json(self) -> tuple[ItemPath, Any]:
        """Returns the path of the first part that JSON cannot hold though it has the right form, and that part."""
        parts: Any = self.value.items() if self.kind == "document" else ()
        for name, part in parts:
            each = enumerate(part) if isinstance(part, list) else ()
            for path, one in (*(((name, at), one) for at, one in each), ((name,), part)):
                try:
                    _json(one)
                except ValueError:
                    return path, one
        return (), self.value

    def _bad_input(self, span: int, *words: object) -> BadInput:
        """Returns the error for the first value that does not have the form, or else for what JSON cannot hold."""
        outside = self.OUTSIDE[self.kind]
        spot = left(self.kind, self.value)
        if spot is None:
            path, item = self._without_json()
            return BadInput(*words, span=span, where=self._where(path), path=path, item=item)
        if is_too_deep(spot):
            deep = f"it holds what stands deeper than JSON is read, which is {DEEPEST} levels"
            return BadInput(deep, where=self._where(spot.path[:outside]), path=spot.path, item=spot.value)
        item = spot.value if len(spot.path) >= outside else None
        return BadInput(*words, where=self._where(spot.path), span=spot.number, path=spot.path, item=item)

    def failure(self, reply: Reply) -> Failure:
        """Returns the error for a reply without a text."""
        if reply.status == Status.REFUSED:
            spot = numbered(self.kind, self.value, [reply.span]).get(reply.span)
            path, item = (spot.path, spot.value) if spot else (None, None)
            return Refused(reply.number, reply.span, path=path, item=item)
        if reply.status == Status.BAD_INPUT:
            no_json = reply.line > 0 and self.is_json
            return BadInput(line=reply.line, column=reply.column) if no_json else self._bad_input(reply.span)
        return OutOfMemory() if reply.status == Status.OUT_OF_MEMORY else OtherLibrary()

    def dead_links(self, text: str, listed: list[dict[str, int]]) -> DeadLinks:
        """Returns the error for a text with the dead links that the library lists."""
        spots = numbered(self.kind, self.value, (it["span"] for it in listed))
        named = dict(enumerate(names(self.value), 1))
        found = ((it, spots[it["span"]], named.get(it["destination"])) for it in listed)
        return DeadLinks(text, tuple(DeadLink(**it, name=name, path=spot.path, item=spot.value) for it, spot, name in found))

    def text(self, call: str, **numbers: int) -> str:
        """Returns the text that a call of the library makes of it."""
        reply, output = called(call, self.data, **numbers)
        if reply.status == Status.DONE:
            return output.decode()
        if reply.status != Status.DEAD_LINKS or not numbers.get("links"):
            raise self.failure(reply)
        listed = json.loads(self.text("typst_html_dead_links", limit=numbers["limit"]))
        raise self.dead_links(output.decode(), listed["dead_links"])


def _bytes(data: bytes | str, where: str) -> bytes:
    try:
        return data.encode() if isinstance(data, str) else memoryview(data).tobytes()
    except (UnicodeEncodeError, TypeError) as error:
        raise BadInput(error, where=where) from error


def _document(call: str, items: Items, footnotes: Items, head: Items, info: Info, limit: int) -> _Given:
    """Returns the input of that call for a document."""
    _number("the limit", limit, 1, 10_000, f"{call}(limit)")
    if not isinstance(info, Info):
        raise BadInput(f"info is {_kind_of(info)}, not an Info", where=f"{call}(info)")
    given = {"items": items, "footnotes": footnotes, "head": head}
    listed = {name: _listed(call, name, of) for name, of in given.items()}
    # An empty list counts as given, so `unused` would name it.
    filled = {name: of for name, of in listed.items() if of or name == "items"}
    return _Given(call, (), "document", value={**info.members(), **filled})


def write(
    items: Items, *, info: Info = Info(), footnotes: Items = (), head: Items = (), pretty: bool = False, links: bool = False,
    limit: int = 50,
) -> str:  # fmt: skip
    """Returns the text of a document of these items.

    `head` has the nodes at the end of its head: texts, and elements that hold only such. `pretty` lays the text out in
    indented lines, wherever that does not change what is visible. `links` gives each `a` without `href` behind a `link`, or
    a `start` with a destination, the `href` of that place; if the document has no such place, it raises `DeadLinks`, which
    has the text. `limit` is the greatest depth of bodies, from 1 to 10,000; JSON is read 127 levels deep, which is 63
    nested elements.

    >>> write(["a  b"], info=Info(title="T", lang="de", region="AT"))[:42]
    '<!DOCTYPE html><html lang="de-AT"><head><m'
    >>> icon = element("link", attrs={"rel": "icon", "href": "i.png"})
    >>> write([], head=[icon])[-57:]
    '<link rel="icon" href="i.png"></head><body></body></html>'

    Raises `Refused`, `BadInput`, `OutOfMemory` or `DeadLinks`.
    """
    given = _document("write", items, footnotes, head, info, limit)
    return given.text("typst_html_document", layout=int(bool(pretty)), links=int(bool(links)), limit=limit)


def unused(items: Items, *, info: Info = Info(), head: Items = (), limit: int = 50) -> tuple[str, ...]:
    """Returns the names of the information about a document of these items that its text does not show. If the items have an
    `html` of their own, their head is used, and these are the names of all that is known, and `head`. Otherwise there are
    none.

    >>> unused([element("html")], info=Info(title="T", lang="de"))
    ('title', 'lang')
    >>> unused(["a"], info=Info(title="T"))
    ()

    Raises `Refused`, `BadInput` or `OutOfMemory`.
    """
    given = _document("unused", items, (), head, info, limit)
    return tuple(json.loads(given.text("typst_html_unused", limit=limit))["unused"])


def _fragment(given: _Given, level: Level, limit: int) -> str:
    """Returns the text of items by themselves."""
    if level not in LEVELS:
        raise BadInput(f"{level!r} is no level: block or inline", where=f"{given.call}(level)")
    _number("the limit", limit, 1, 10_000, f"{given.call}(limit)")
    return given.text("typst_html_fragment", level=LEVELS[level], limit=limit)


def write_fragment(items: Items, *, level: Level = "block", limit: int = 50) -> str:
    """Returns the text of items by themselves, without document type, head and body: a piece of a page that another program
    makes, such as a template engine.

    In a `div`, the text is read as the nodes of these items. At the level `block` the spaces of items in plain flow stay;
    at the level `inline` a space at either end of the text is left as it is. Links get neither anchors nor an `href`,
    since both depend on the ids of the whole page. `limit` is the greatest depth of bodies, from 1 to 10,000.

    >>> write_fragment([element("p", "Salt & vinegar", css={"color": "red"})])
    '<p style="color: red">Salt &amp; vinegar</p>'

    Raises `Refused`, `BadInput` or `OutOfMemory`.
    """
    listed = _listed("write_fragment", "items", items)
    return _fragment(_Given("write_fragment", ("items",), "fragment", value=listed), level, limit)


def write_fragment_json(data: bytes | str, *, level: Level = "block", limit: int = 50) -> str:
    """Returns the text of items by themselves, which a JSON list spells. The items have the form of those of a `document` of
    `write_json`.

    >>> write_fragment_json('[["text","a < b"]]', level="inline")
    'a &lt; b'

    Raises `Refused`, `BadInput` or `OutOfMemory`.
    """
    given = _Given("write_fragment_json", ("data",), "fragment", data=_bytes(data, "write_fragment_json(data)"))
    return _fragment(given, level, limit)


def write_tree(root: Item, *, pretty: bool = False) -> str:
    """Returns the text of the tree with that root. It may hold only texts, elements without css, starts without labels, and
    ends.

    >>> write_tree(element("p", "a < b"))
    '<!DOCTYPE html><p>a &lt; b</p>'

    Raises `Refused`, `BadInput` or `OutOfMemory`.
    """
    given = _Given("write_tree", ("root",), "tree", value=_item(root, "write_tree(root)"))
    return given.text("typst_html_write", kind=0, layout=int(bool(pretty)))


@overload
def write_json(
    data: bytes | str, *, kind: Literal["document"], pretty: bool = ..., links: bool = ..., limit: int = ...
) -> str: ...


@overload
def write_json(data: bytes | str, *, kind: Kind = ..., pretty: bool = ...) -> str: ...


def write_json(
    data: bytes | str, *, kind: Kind = "items", pretty: bool = False, links: bool = False, limit: int = 50
) -> str:
    """Returns the text of what JSON spells: a `tree`, the `items` of a document, or a `document`. That is an object with the
    members `title`, `description`, `authors`, `keywords`, `lang`, `region`, `items`, `footnotes` and `head`. Each may be
    left out, but a `region` requires a `lang`.

    `links` and `limit` are for a `document`, and mean what they do for `write`. Bodies of `items` may be 50 deep. If the
    input is refused or bad, Python reads it once more for the path.

    >>> write_json('["el","br",[],[]]', kind="tree")
    '<!DOCTYPE html><br>'
    >>> write_json('{"items":[["block",[["block",[]]]]]}', kind="document", limit=1)
    Traceback (most recent call last):
        ...
    typst_html_proved.Refused: a body, or an element of a page, stands deeper than the limit (refusal 8 at 2, items[0][1][0])

    >>> try:
    ...     write_json('{"items":[["start",1,7],["el","a",[],[]]]}', kind="document", links=True)
    ... except DeadLinks as dead:
    ...     print(dead)
    links lead nowhere (1, the first at 2)

    Raises `Refused`, `BadInput`, `OutOfMemory` or, with `links`, `DeadLinks`.
    """
    data, layout = _bytes(data, "write_json(data)"), int(bool(pretty))
    if kind == "document":
        _number("the limit", limit, 1, 10_000, "write_json(limit)")
    elif kind not in ("tree", "items"):
        raise BadInput(f"{kind!r} is no kind: tree, items or document", where="write_json(kind)")
    elif links or limit != 50:
        named, are = ("links", "are") if links else ("limit", "is")
        raise BadInput(f"the {named} of a document {are} given for kind {kind!r}", where=f"write_json({named})")
    given = _Given("write_json", ("data",), kind, data=data)
    if kind == "document":
        return given.text("typst_html_document", layout=layout, links=int(bool(links)), limit=limit)
    return given.text("typst_html_write", kind=int(kind == "items"), layout=layout)


def _unread(reply: Reply, mark: int) -> Failure:
    """Returns the error for a page that is not read, behind a mark of that length."""
    place = Place(reply.span - mark, reply.line, reply.column)
    if reply.status == Status.REFUSED:
        return Refused(reply.number, place.offset, place)
    if reply.status == Status.BAD_INPUT:
        return BadInput("a byte that is no text", place=place)
    return OutOfMemory() if reply.status == Status.OUT_OF_MEMORY else OtherLibrary()


def _reported_by(call: str, page: bytes | str, limit: int, where: str) -> dict[str, list[dict[str, Any]]]:
    """Returns what a call reports of a page."""
    _number("the limit", limit, 1, 1_000, f"{where}(limit)")
    data = _bytes(page, f"{where}(page)")
    # A text is UTF-8, whatever encoding it declares.
    mark = b"" if not isinstance(page, str) or data.startswith(BOM_UTF8) else BOM_UTF8
    reply, output = called(call, mark + data, limit=limit)
    if reply.status != Status.DONE:
        raise _unread(reply, len(mark))
    report: dict[str, list[dict[str, Any]]] = json.loads(output.decode())
    for it in chain.from_iterable(report.values()):
        it["offset"] -= len(mark)
    return report


def check(page: bytes | str, *, limit: int = 50) -> Findings:
    """Returns what is wrong in a page: links to fragments of the page itself that lead nowhere, ids that an earlier element
    has, and nodes that would make a browser build another tree if the tree of the page were written.

    Reads any page, as a browser without scripting does: what may be left out is implied, and errors are recovered from.
    But a page with an element that is deeper than `limit` is `Refused`. The limit is from 1 to 1,000: `html` has depth 1.

    Bytes are decoded first, by their byte order mark, or else by the encoding that a `meta` names among the first 1,024.
    Without either, they are UTF-8 if they can be, and windows-1252 otherwise. A page whose encoding is not UTF-8, UTF-16
    or windows-1252 is `Refused`, and bytes that are no text in it are `BadInput`. Both errors have the place in `place`.

    >>> check("<title>Pie</title>\\n<p>Salt & <a href=#pepper>pepper</a>").dead_fragments
    (DeadFragment(path=(1, 0, 1), fragment='pepper', place=Place(offset=29, line=2, column=11)),)
    >>> check("<p>\\n<b>1</b></p>", limit=3)
    Traceback (most recent call last):
        ...
    typst_html_proved.Refused: a body, or an element of a page, stands deeper than the limit (refusal 8 at 2:1)

    Raises `Refused`, `BadInput` or `OutOfMemory`.
    """
    return findings_of(_reported_by("typst_html_check", page, limit, "check"))


def links(page: bytes | str, *, limit: int = 50) -> PageLinks:
    """Returns what a check of links between pages needs of a page: the ids and names to which a link with a fragment may
    lead, and its own links.

    Pages are read, limited and refused as by `check`. Addresses are returned as they are written: the caller finds out
    where they lead.

    >>> page = links("<h1 id=salt>Salt</h1>\\n<a href=pepper.html#black>pepper</a>")
    >>> [it.id for it in page.ids], [it.href for it in page.links], str(page.links[0].place)
    (['salt'], ['pepper.html#black'], '2:1')

    Raises `Refused`, `BadInput` or `OutOfMemory`.
    """
    return links_of(_reported_by("typst_html_links", page, limit, "links"))
