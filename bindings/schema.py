#!/usr/bin/python3
"""items.schema.json accepts what the program and the library read, and nothing else, over the rows of crates/tests_rows:
an input is valid if its result is a text or a refusal, and invalid if the form is left. Each rule of the schema is
needed: without it a row differs. What no schema can say is counted by its rule.

It needs Debian's python3-jsonschema. With TYPST_HTML_LIB and PYTHONPATH=python the library reads MORE, too. The last
line is the counts, and the status is not 0 if something differs.
"""

import copy
import json
import os
import re
import sys
import threading
from collections import Counter
from pathlib import Path
from typing import Any, Iterator, NamedTuple

from jsonschema import Draft202012Validator

sys.dont_write_bytecode = True
from rows import document, reader

SCHEMA = Path(__file__).resolve().parent / "items.schema.json"
RUNS = {"tree": "tree", "doc": "items"}
CALLS = {
    "c-write": ("tree", "items"), "c-document": ("document",), "c-dead-links": ("document",), "c-fragment": ("items_of_document",),
}  # fmt: skip
OF_TESTS = ("document", "links", "dead-links")

# Inputs that leave the form where no row does.
MORE = [
    ("tree", '["el","p",["id"],[]]'),
    ("tree", '["el","p",[[7,"a"]],[]]'),
    ("tree", '["el","p",[],[["text","a","b"]]]'),
    ("items", '[["EL","p",[],[]]]'),
    ("items", '[["el",7,[],[]]]'),
    ("items", '[["el","p",[],[],[]]]'),
    ("document", '{"description":7}'),
    ("document", '{"lang":7}'),
    ("document", '{"lang":"de","region":7}'),
    ("document", '{"items":[["EL","p",[],[]]]}'),
    ("document", '{"items":[["el",7,[],[]]]}'),
    ("document", '{"items":[["el","p",[7],[]]]}'),
    ("document", '{"items":[["el","p",[],[7]]]}'),
    ("document", '{"items":[["EL","p",[],[],[]]]}'),
    ("document", '{"items":[["el",7,[],[],[]]]}'),
    ("document", '{"items":[["BLOCK",[]]]}'),
    ("document", '{"items":[["block",[],[]]]}'),
    ("document", '{"items":[["ROLE","a",["space"]]]}'),
    ("document", '{"items":[["START",1,2,"a"]]}'),
    ("document", '{"items":[["START",1]]}'),
    ("document", '{"items":[["END",1]]}'),
    ("document", '{"items":[["PLACE","a"]]}'),
    ("document", '{"items":[["space",7]]}'),
    ("document", '{"items":[["block"]]}'),
]  # fmt: skip

VERDICTS = ("valid", "invalid")
DEEPEST = 127
# Of longer lists, only the first and the last values are checked, half each: no list of a fixed length has so many.
MOST = 200
# Rows with longer inputs are not tried on a changed schema.
SHORT = 2000


class Case(NamedTuple):
    """An input, the definition that it is read by, and the result: `read`, `left` or `no JSON`."""

    place: str
    kind: str
    input: bytes
    end: str


def of_run(row: Any, answer: Any) -> Case:
    """Returns the result of a run."""
    end = "read" if answer.status < 2 else "no JSON" if answer.line else "left"
    return Case(row.place, RUNS[row.words[0]], row.input, end)


def of_call(row: Any) -> Case | None:
    """Returns the result of a call, or nothing if its numbers are wrong, so that its input is not read."""
    word, *more = row.words
    numbers = {name: int(number) for name, number in (one.split("=") for one in more)}
    reply = {name: int(number) for name, number in re.findall(r"(\w+): (\d+)", row.output.partition("}")[0])}
    kinds, kind = CALLS[word], numbers.get("kind", 0)
    right = kind < len(kinds) and all(numbers.get(name, 0) < 2 for name in ("layout", "links", "level"))
    if not (right and 1 <= numbers.get("limit", 1) <= 10_000):
        return None
    end = "read" if reply["status"] != 2 else "no JSON" if reply["line"] else "left"
    return Case(row.place, kinds[kind], row.input, end)


def of_tests(row: Any) -> Case:
    """Returns whether the library has the items of a row; the tests also read css, frames and roles."""
    given = row.input if row.input.startswith(b"{") else b'{"items":' + row.input + b"}"
    return Case(row.place, "document", given, "left" if document(row.input) is None else "read")


def cases() -> Iterator[Case]:
    """Returns the inputs of all rows of the schema's kinds."""
    files = reader()
    for row in files.rows():
        word = row.words[0] if row.words else ""
        if row.words in files.FRAMES:
            yield of_run(row, files.answer(row))
        elif word in OF_TESTS:
            yield of_tests(row)
        elif word in CALLS and (case := of_call(row)):
            yield case


def constant(name: str) -> None:
    """Python reads NaN and Infinity, which are no JSON."""
    raise ValueError(name)


def value_of(text: bytes) -> Any:
    """Returns the JSON value, as any reader takes it: 1.0 and 1e2 are whole numbers."""
    return json.loads(text.decode(), parse_constant=constant)


def strict_value_of(text: bytes) -> Any:
    """Returns the JSON value with null for each number that is not in digits alone."""
    whole = lambda digits: None if digits == "-0" else int(digits)
    return json.loads(text.decode(), parse_constant=constant, parse_int=whole, parse_float=lambda _: None)


def parts(value: Any) -> list[Any]:
    """Returns the values in a list or an object."""
    return value if isinstance(value, list) else [*value, *value.values()] if isinstance(value, dict) else []


def levels(value: Any) -> list[list[Any]]:
    """Returns the values at each depth."""
    found = []
    level = [value]
    while level:
        found.append(level)
        level = [part for one in level for part in parts(one)]
    return found


def thinned(value: Any) -> Any:
    """Returns the value with the first and the last values of long lists."""
    if isinstance(value, dict):
        return {name: thinned(part) for name, part in value.items()}
    if not isinstance(value, list):
        return value
    return [thinned(part) for part in (value if len(value) <= MOST else value[: MOST // 2] + value[-MOST // 2 :])]


def has_names_and_numbers(document: Any) -> bool:
    """Whether some tags of a document have names, and some have numbers."""
    lists = [one for level in levels(document) for one in level if isinstance(one, list)]
    kinds = {one[0] for one in lists if one and isinstance(one[0], str)}
    return bool(kinds & {"place", "link"} and kinds & {"start", "end"})


def why_no_json(text: bytes) -> str | None:
    """Returns why the program reads no JSON in a text, though a schema never learns that; nothing if it should."""
    try:
        found = levels(value_of(text))
    except ValueError:
        return "no JSON"
    except RecursionError:
        return f"deeper than {DEEPEST} levels"
    plain = [one for level in found for one in level if not isinstance(one, (list, dict))]
    if any(isinstance(one, str) and re.search("[\ud800-\udfff]", one) for one in plain):
        return "a lone surrogate"
    if any(isinstance(one, (int, float)) and abs(one) > sys.float_info.max for one in plain):
        return "a number that no float holds"
    deepest = sum(any(isinstance(one, (list, dict)) for one in level) for level in found)
    return f"deeper than {DEEPEST} levels" if deepest > DEEPEST else None


def validators(schema: Any) -> dict[str, Draft202012Validator]:
    """Returns a validator for each definition."""
    kinds = ("tree", "items", "document", "items_of_document")
    return {kind: Draft202012Validator({"$ref": f"#/$defs/{kind}", "$defs": schema["$defs"]}) for kind in kinds}


def judged(case: Case, by: dict[str, Draft202012Validator], whole: Draft202012Validator) -> str | None:
    """Returns what the schema says of an input: `valid`, `invalid`, or why it can't tell; nothing if it is wrong."""
    if case.end == "no JSON":
        return why_no_json(case.input)
    try:
        value, strict = thinned(value_of(case.input)), thinned(strict_value_of(case.input))
    except (ValueError, RecursionError):
        return None
    valid, strictly = by[case.kind].is_valid(value), by[case.kind].is_valid(strict)
    if case.end == "read":
        return "valid" if valid and strictly and whole.is_valid(value) else None
    if valid and not strictly:
        return "a number not in digits alone"
    if valid and case.kind in ("document", "items_of_document") and has_names_and_numbers(value):
        return "names beside numbers"
    return None if valid else "invalid"


def rules(node: Any, path: tuple[Any, ...] = ()) -> Iterator[tuple[Any, ...]]:
    """Returns the path of each rule of the definitions."""
    inside: Any = node.items() if isinstance(node, dict) else enumerate(node) if isinstance(node, list) else ()
    for key, part in inside:
        if key != "description" or isinstance(part, dict):
            if path:
                yield path + (key,)
            yield from rules(part, path + (key,))


def without(schema: Any, path: tuple[Any, ...]) -> Any:
    """Returns the schema without a rule."""
    changed = copy.deepcopy(schema)
    node = changed["$defs"]
    *before, last = path
    for key in before:
        node = node[key]
    if before[-1] == "prefixItems":
        node[last] = True  # what stands behind it keeps its place
    else:
        del node[last]
    return changed


def is_seen(schema: Any, tried: list[tuple[str, Any, bool]]) -> bool:
    """Returns whether any value is judged in another way."""
    by = validators(schema)
    return any(by[kind].is_valid(value) != valid for kind, value, valid in tried)


def read_by_library(kind: Any, text: str) -> bool:
    """Returns whether the library reads an input."""
    from typst_html_proved import BadInput, write_json

    try:
        write_json(text, kind=kind)
    except BadInput:
        return False
    return True


def main() -> int:
    """Returns the number of differences."""
    schema = json.loads(SCHEMA.read_text(encoding="utf-8"))
    Draft202012Validator.check_schema(schema)
    by, whole, differ, long = validators(schema), Draft202012Validator(schema), [], 0
    counts: Counter[str | None] = Counter()
    tried = [(kind, json.loads(text), False) for kind, text in MORE]
    for case in (*cases(), *(Case(f"MORE: {text}", kind, text.encode(), "left") for kind, text in MORE)):
        said = judged(case, by, whole)
        counts[said] += 1
        if said is None:
            differ.append(f"{case.place}: {case.end}, and the schema says otherwise")
        elif said in VERDICTS:
            value = value_of(case.input)
            long += value != thinned(value)
            if len(case.input) <= SHORT:
                tried.append((case.kind, value, said == "valid"))
    tried.sort(key=lambda one: one[2])
    places = list(rules(schema["$defs"]))
    differ += [f"{'/'.join(map(str, path))}: no row needs it" for path in places if not is_seen(without(schema, path), tried)]
    if "TYPST_HTML_LIB" in os.environ:
        differ += [f"{text}: the library reads it" for kind, text in MORE if read_by_library(kind, text)]
    print("\n".join(differ), end="\n" if differ else "")
    beyond = ", ".join(f"{said} {count}" for said, count in counts.items() if said not in (*VERDICTS, None))
    print(
        f"schema: {counts['valid']} inputs valid, {counts['invalid']} invalid ({long} by the ends of long lists), "
        f"{len(places)} rules needed; beyond a schema: {beyond}; {len(differ)} differ"
    )
    return len(differ)


if __name__ == "__main__":
    # The inputs that are read are up to 127 levels deep, each of which takes several calls; others are deeper.
    sys.setrecursionlimit(100_000)
    sys.set_int_max_str_digits(0)
    threading.stack_size(256 << 20)
    ended: list[int] = []
    thread = threading.Thread(target=lambda: ended.append(main()))
    thread.start()
    thread.join()
    sys.exit(ended != [0])
