#!/usr/bin/env python3
"""Writes a mail for each record, on all cores or on a cluster: write_mails.py RECORDS FOLDER.

RECORDS is a file with an object of JSON in each line, `{"to": t, "name": t, "text": t, "link": t}`, or a number: then
that many records are made up. FOLDER gets a file for each batch, with a line for each mail, `{"to": t, "html": t}`, and
`failures.jsonl` with a line for each record that makes no mail, `{"record": n, "failure": t}`, counted from 1. On a
cluster all machines must have that folder. The status is 1 if a record makes no mail.
"""

from __future__ import annotations

import json
import os
import sys
from itertools import islice
from pathlib import Path
from typing import Iterator, Sequence, Union

import batches
from typst_html_proved import Failure, Info, element, write

Failures = list[tuple[int, str]]

Batch = tuple[int, Sequence[Union[bytes, int]], str]
"""The number of the first record, the records as lines of JSON, or numbers of those to be made up, and where their
mails are to stand."""


def mail(line: bytes) -> dict[str, str]:
    """Returns the mail of a record."""
    record = json.loads(line)
    body = [
        element("h1", f"Dear {record['name']}"),
        *(element("p", part) for part in record["text"].split("\n\n")),
        element("p", element("a", "Read on", attrs={"href": record["link"]})),
    ]
    return {"to": record["to"], "html": write(body, info=Info(title="Salt & vinegar", lang="en"))}


def write_batch(batch: Batch) -> Failures:
    """Writes the mails of a batch, and returns the records that make none, with the reasons."""
    first, lines, path = batch
    failures: Failures = []
    # (a batch that is done a second time, since its worker died, replaces what was there)
    written = f"{path}.{os.getpid()}"
    with open(written, "w", encoding="utf-8") as file:
        for number, line in enumerate(lines, first):
            try:
                record = line if isinstance(line, bytes) else made_up(line)
                file.write(json.dumps(mail(record), ensure_ascii=False) + "\n")
            except (Failure, ValueError, TypeError, KeyError, AttributeError) as error:
                failures.append((number, f"{type(error).__name__}: {error}"))
    os.replace(written, path)
    return failures


def made_up(number: int) -> bytes:
    """Returns the record of that number. Every thousandth has a character that HTML cannot hold."""
    name = f"Ada {number}" if number % 1000 else "Ada \0"
    text = "Salt & vinegar are back.\n\nWrite  to us < soon > about it."
    record = {"to": f"{number}@example.org", "name": name, "text": text, "link": f"https://example.org/?n={number}"}
    return json.dumps(record).encode()


def parts_of(records: str, size: int) -> Iterator[Sequence[Union[bytes, int]]]:
    """Returns the records in parts of that size: the lines of the file, or the numbers from 1 on."""
    if records.isdigit():
        numbers = range(1, int(records) + 1)
        yield from (numbers[at : at + size] for at in range(0, len(numbers), size))
    else:
        with open(records, "rb") as file:
            while part := list(islice(file, size)):
                yield part


def batches_of(records: str, size: int, folder: Path) -> Iterator[Batch]:
    """Returns the records in batches."""
    first = 1
    for part in parts_of(records, size):
        yield first, part, str(folder / f"mails-{first:09}.jsonl")
        first += len(part)


def main() -> int:
    """Writes all mails."""
    parser = batches.parser(__doc__)
    parser.add_argument("records")
    parser.add_argument("folder", type=Path)
    words = parser.parse_args()
    folder = words.folder.resolve()
    folder.mkdir(parents=True, exist_ok=True)
    with batches.engine(words) as client, open(folder / "failures.jsonl", "w", encoding="utf-8") as rows:
        progress = batches.Progress("mails", words.quiet)
        given = batches_of(words.records, words.batch, folder)
        for (first, lines, _), found in batches.results(client, write_batch, given):
            if isinstance(found, BaseException):
                found = [(first + at, f"{type(found).__name__}: {found}") for at in range(len(lines))]
            for number, failure in found:
                print(json.dumps({"record": number, "failure": failure}, ensure_ascii=False), file=rows)
            progress.add(len(lines) - len(found), len(found))
        progress.ended(client)
    return 1 if progress.failed else 0


if __name__ == "__main__":
    sys.exit(main())
