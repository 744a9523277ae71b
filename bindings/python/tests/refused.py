"""Arguments that are refused for their types: by the package, and by `mypy --strict`, which reports a `type: ignore` as
unused in a line that it accepts."""

from __future__ import annotations

from dataclasses import FrozenInstanceError
from operator import delitem, setitem
from typing import Callable

import typst_html_proved
from typst_html_proved import (
    BREAK, HOLE, SPACE, WORDS, DeadLink, Findings, Info, Node, Place, block, box, check, element, end, link, place, role, start, text, unused,
    write, write_json, write_tree,
)  # fmt: skip

# The words that say where and what is wrong, and the call.
REFUSED: list[tuple[str, str, Callable[[], object]]] = [
    ("element(body[0])", "an item is None", lambda: element("p", None)),  # type: ignore
    ("element(body[0])", "an item is of type int", lambda: element("p", 3)),  # type: ignore
    ("element(body[0])", "an item is a list of items: give each of them",
     lambda: element("p", [element("b")])),  # type: ignore
    ("element(body[0])", "an item is a list of items: give each of them", lambda: element("p", [])),  # type: ignore
    ("element(body[0])", "an item is a list that begins with 'a', which is no kind of item",
     lambda: element("p", ["a", "b"])),  # type: ignore
    ("element(body[0])", "an item is of type generator", lambda: element("p", (text(it) for it in "ab"))),  # type: ignore
    ("element(tag)", "a tag is None, not a str", lambda: element(None)),  # type: ignore
    ("element(tag)", "a tag is of type Node, not a str", lambda: element(element("p"))),  # type: ignore
    ("element(attrs[0])", "an attribute is of type str, not a pair of a name and a value",
     lambda: element("p", attrs="id")),  # type: ignore
    ("element(attrs[0])", "an attribute is of type str, not a pair of a name and a value",
     lambda: element("p", attrs=["id"])),  # type: ignore
    ("element(attrs[0])", "an attribute is of type tuple, not a pair of a name and a value",
     lambda: element("p", attrs=[("id",)])),  # type: ignore
    ("element(attrs)", "attributes are None", lambda: element("p", attrs=None)),  # type: ignore
    ("element(attrs[0])", "the value of the attribute 'id' is of type int, not a str",
     lambda: element("p", attrs={"id": 3})),  # type: ignore
    ("element(attrs[0])", "the value of the attribute 'id' is None, not a str",
     lambda: element("p", attrs=[("id", None)])),  # type: ignore
    ("element(attrs[0])", "the name of an attribute is of type int, not a str",
     lambda: element("p", attrs={3: "a"})),  # type: ignore
    ("text(of)", "a text is of type int, not a str", lambda: text(3)),  # type: ignore
    ("block(body[0])", "an item is of type bytes", lambda: block(b"a")),  # type: ignore
    ("box(body[1])", "an item is None", lambda: box(SPACE, None)),  # type: ignore
    ("start(location)", "a location is of type str, not an int", lambda: start("a")),  # type: ignore
    ("start(destination)", "a location is of type str, not an int", lambda: start(1, "a")),  # type: ignore
    ("start(label)", "a label is of type int, not a str", lambda: start(1, label=2)),  # type: ignore
    ("end(location)", "a location is None, not an int", lambda: end(None)),  # type: ignore
    ("place(name)", "a name is of type int, not a str", lambda: place(1)),  # type: ignore
    ("link(name)", "a name is None, not a str", lambda: link(None)),  # type: ignore
    ("role(of)", "a role is of type int, not a str", lambda: role(1, "a")),  # type: ignore
    ("role(item)", "an item is None", lambda: role("a", None)),  # type: ignore
    ("element(css[0])", "a property is of type str, not a pair of a name and a value",
     lambda: element("p", css=["color"])),  # type: ignore
    ("element(css)", "properties are None", lambda: element("p", css=None)),  # type: ignore
    ("write(head)", "head are None", lambda: write([], head=None)),  # type: ignore
    ("write(items)", "items are None", lambda: write(None)),  # type: ignore
    ("write(items)", "items are of type int", lambda: write(3)),  # type: ignore
    ("write(items)", "items are one item, not a list of them", lambda: write(text("a"))),  # type: ignore
    ("write(items)", "items are of type dict", lambda: write({"a": "b"})),  # type: ignore
    ("write(items[1])", "an item is None", lambda: write(["a", None])),  # type: ignore
    ("write(items[0])", "an item is of type int", lambda: write([3])),  # type: ignore
    ("write(items[0])", "an item is a list of items: give each of them", lambda: write([[element("b")]])),  # type: ignore
    ("write(footnotes)", "footnotes are None", lambda: write([], footnotes=None)),  # type: ignore
    ("write(limit)", "the limit is of type str, not an int", lambda: write([], limit="5")),  # type: ignore
    ("check(limit)", "the limit is of type float, not an int", lambda: check("", limit=5.0)),  # type: ignore
    ("Info(authors)", "authors are one str, not a list of them",
     lambda: write([], info=Info(authors="Reed"))),  # type: ignore
    ("Info(keywords[0])", "one of the keywords is of type int, not a str",
     lambda: write([], info=Info(keywords=[3]))),  # type: ignore
    ("Info(title)", "a title is of type int, not a str", lambda: write([], info=Info(title=3))),  # type: ignore
    ("write_tree(root)", "an item is None", lambda: write_tree(None)),  # type: ignore
    ("write_json(kind)", "'trees' is no kind: tree, items or document",
     lambda: write_json("[]", kind="trees")),  # type: ignore
    ("write_json(data)", "memoryview: a bytes-like object is required, not 'int'", lambda: write_json(3)),  # type: ignore
    ("check(page)", "memoryview: a bytes-like object is required, not 'NoneType'", lambda: check(None)),  # type: ignore
    ("write(items)", "items are one item, not a list of them", lambda: write(SPACE)),  # type: ignore
    ("write(footnotes)", "footnotes are one item, not a list of them",
     lambda: write([], footnotes=element("p"))),  # type: ignore
    ("write(info)", "info is None, not an Info", lambda: write([], info=None)),  # type: ignore
    ("unused(info)", "info is None, not an Info", lambda: unused([], info=None)),  # type: ignore
    ("unused(items[1])", "an item is None", lambda: unused(["a", None])),  # type: ignore
    ("write_json(links)", "the links of a document are given for kind 'items'",
     lambda: write_json("[]", links=True)),  # type: ignore
    ("write_json(limit)", "the limit of a document is given for kind 'tree'",
     lambda: write_json("[]", kind="tree", limit=3)),  # type: ignore
    ("write_json(kind)", "[] is no kind: tree, items or document", lambda: write_json("[]", kind=[])),  # type: ignore
]

# Arguments that are refused for their values.
REFUSED += [
    ("start(location)", "a location is -1, not from 0 to 18446744073709551615", lambda: start(-1)),
    ("end(location)", "a location is 18446744073709551616, not from 0 to 18446744073709551615", lambda: end(1 << 64)),
    ("write(limit)", "the limit is 0, not from 1 to 10000", lambda: write([], limit=0)),
    ("write_json(limit)", "the limit is 0, not from 1 to 10000", lambda: write_json("{}", kind="document", limit=0)),
    ("check(limit)", "the limit is 1001, not from 1 to 1000", lambda: check("", limit=1001)),
    ("unused(limit)", "the limit is 10001, not from 1 to 10000", lambda: unused([], limit=10_001)),
]

# What nothing in the package changes: the error of a change, and the change.
FIXED: list[tuple[type[Exception], Callable[[], object]]] = [
    (TypeError, lambda: setitem(WORDS, 1, "")),  # type: ignore
    (TypeError, lambda: delitem(WORDS, 1)),  # type: ignore
    (TypeError, lambda: setitem(SPACE, 0, "break")),  # type: ignore
    (AttributeError, lambda: HOLE.append("a")),  # type: ignore
    (AttributeError, lambda: BREAK.extend(["a"])),  # type: ignore
    (FrozenInstanceError, lambda: setattr(Info(), "title", "a")),
    (FrozenInstanceError, lambda: setattr(Place(0, 1, 1), "line", 2)),
    (FrozenInstanceError, lambda: setattr(DeadLink(1, 2), "span", 3)),
    (FrozenInstanceError, lambda: setattr(Findings(), "repeated_ids", ())),
]


def reassigned() -> None:
    """Names and fields that types keep, some of which Python would let change. It is not called."""
    typst_html_proved.SPACE = BREAK  # type: ignore
    typst_html_proved.WORDS = {}  # type: ignore
    typst_html_proved.VERSION = 7  # type: ignore
    typst_html_proved.__version__ = "1"  # type: ignore
    Info().title = "a"  # type: ignore
    Place(0, 1, 1).line = 2  # type: ignore
    DeadLink(1, 2).span = 3  # type: ignore
    Findings().repeated_ids = ()  # type: ignore


def taken() -> list[str]:
    """Returns what is accepted, each with a `p` that has the id `x` and the text `a`."""
    attrs = {"id": "x"}
    paragraph = element("p", "a", attrs=attrs)
    return [
        write([paragraph]),
        write((paragraph,)),
        write(it for it in [paragraph]),
        write({1: paragraph}.values()),
        write([element("p", "a", attrs=[("id", "x")])]),
        write([element("p", Node(["text", "a"]), attrs=attrs.items())]),
        write([Node(["el", "p", [["id", "x"]], [text("a")]])]),
    ]
