#!/usr/bin/env python3
"""rows.py json|c: the rows of crates/tests_rows, as the tests of the bindings read them.

Runs of the program on trees and items are calls of typst_html_write, rows of whole documents calls of
typst_html_document, if its JSON has everything in them; rows of items by themselves are calls of typst_html_fragment.
With links, those that lead nowhere are listed as the row `dead-links` of that input says; without such a row, all lead. Rows about the program's words are left out, since
the library has none; so are, for JSON and C, rows whose input or text is longer than MOST bytes.
"""

import json
import sys
from importlib.util import module_from_spec, spec_from_file_location
from pathlib import Path
from typing import Any, NamedTuple

READER = Path(__file__).resolve().parent.parent / ".ci" / "rows.py"
KINDS = {"tree": 0, "doc": 1, "document": 2, "links": 2, "fragment-text": 3}
LEVELS = {"block": 0, "inline": 1}
MOST = 1 << 16

# The lengths of the lists of a document's items. The library has no frames.
LENGTHS = {
    "text": {2}, "space": {1}, "break": {1}, "hole": {1}, "start": {2, 3, 4}, "end": {2}, "block": {2}, "box": {2}, "el": {4, 5},
    "place": {2}, "link": {2}, "role": {3},
}  # fmt: skip
BODIES = ("block", "box", "el")


class Row(NamedTuple):
    """The input of a call, and its result."""

    kind: int
    layout: int
    links: int
    limit: int
    input: bytes
    status: int
    number: int
    span: int
    line: int
    column: int
    text: bytes
    level: int
    dead: bytes
    """What typst_html_dead_links writes, where links get an `href`."""


def reader() -> Any:
    """Returns the module that reads the files."""
    sys.dont_write_bytecode = True
    spec = spec_from_file_location("reader", READER)
    module = module_from_spec(spec)
    spec.loader.exec_module(module)
    return module


def is_own(items: list | None) -> bool:
    """Returns whether the library has all these items. It has no absent body."""
    return items is not None and all(len(item) in LENGTHS.get(item[0], ()) and is_own(inside(item)) for item in items)


def inside(item: list) -> list | None:
    """Returns the items inside an item."""
    return item[-1] if item[0] in BODIES else [item[-1]] if item[0] == "role" else []


def document(given: bytes) -> bytes | None:
    """Returns the object of a document that a row is about, if the library has all its items."""
    spelled = json.loads(given)
    if isinstance(spelled, list):
        spelled, given = {"items": spelled}, b'{"items":' + given + b"}"
    return given if is_own(spelled.get("items", []) + spelled.get("footnotes", [])) else None


def dead_links(output: str) -> list[dict[str, int]]:
    """Returns the links of a row `dead-links`, which has the span and the destination of each, and may end in brackets with those
    that get no `href`."""
    pairs = [map(int, one.split(" to ")) for one in output.split(" [")[0].split(", ") if one]
    return [{"destination": destination, "span": span} for span, destination in pairs]


def rows(most: int | None = None) -> list[Row]:
    """Returns all rows about an input; with `most`, only those whose input and text are at most that long."""
    found = []
    files = reader()
    dead = {row.input: dead_links(row.output) for row in files.rows() if row.words == ("dead-links",)}
    for row in files.rows():
        word, *more = row.words or [""]
        level = LEVELS[more.pop(0)] if word == "fragment-text" else 0
        if row.words in files.FRAMES:
            layout, links, limit, given, answer = len(more), 0, 50, row.input, files.answer(row)
        elif word in ("document", "links") and not row.output.startswith("refused"):
            # (of a refusal, a row says more than the library does)
            layout, links, limit = 0, int(word == "links"), int("".join(more).removeprefix("limit=") or 50)
            given, answer = document(row.input), files.answer(row._replace(words=("doc",)))
        elif word == "fragment-text":
            layout, links, limit = 0, 0, int("".join(more).removeprefix("limit=") or 50)
            is_refused = row.output.startswith("refused")
            given, answer = row.input, files.answer(row) if is_refused else files.Answer(0, row.output)
        else:
            continue
        text, listed = answer.text.encode() if answer.status == 0 else b"", b""
        if links:
            nowhere = dead.get(row.input, [])
            listed = json.dumps({"dead_links": nowhere}, separators=(",", ":")).encode()
            answer = answer._replace(status=5, span=nowhere[0]["span"]) if nowhere else answer
        if given is not None and (most is None or max(len(given), len(text)) <= most):
            status, _, *place = answer
            found.append(Row(KINDS[word], layout, links, limit, given, status, *place, text, level, listed))
    return found


def as_json(found: list[Row]) -> str:
    """Returns the rows, their bytes in hexadecimal."""
    plain = lambda value: value.hex() if isinstance(value, bytes) else value
    return json.dumps([{k: plain(v) for k, v in row._asdict().items()} for row in found], indent=1)


def quoted(data: bytes) -> str:
    """Returns the bytes as a string of C."""
    return '"' + "".join(chr(b) if 32 <= b < 127 and b not in b'"\\?' else f"\\{b:03o}" for b in data) + '"'


def as_c(found: list[Row]) -> str:
    """Returns the rows as an array of C."""
    lines = [
        f"    {{{r.kind}, {r.layout}, {r.links}, {r.limit}, {r.status}, {r.number}, {r.span}, {r.line}, {r.column}, "
        f"{r.level}, {len(r.input)}, {len(r.text)}, {quoted(r.input)}, {quoted(r.text)}, {quoted(r.dead)}}},"
        for r in found
    ]
    fields = (
        "uint8_t kind, layout, links; uint32_t limit; uint8_t status, number; uint64_t span; "
        "size_t line, column; uint8_t level; size_t length, text_length; "
        "const char *input, *text, *dead;"
    )
    return "\n".join(
        [
            f"enum {{ DOCUMENT = {KINDS['document']}, FRAGMENT = {KINDS['fragment-text']}, MOST = {MOST} }};",
            f"static const struct row {{ {fields} }} rows[] = {{", *lines, "};", "",
        ]  # fmt: skip
    )


if __name__ == "__main__":
    short = rows(MOST)
    print({"json": as_json, "c": as_c}[sys.argv[1]](short), end="")
    print(f"{len(short)} rows; left out are those whose input or text is longer than {MOST} bytes", file=sys.stderr)
