#!/usr/bin/env python3
"""Checks the links within pages, on all cores or on a cluster: check_pages.py FOLDER..

Each file below the folders whose name ends with .html or .htm is a page. Findings go to standard output, a line of JSON
each: `{"page": t, "line": n, "column": n, "what": t}`, sorted by the pages. Line and column are 0 if a file can't be read.
On a cluster all machines must have these folders, under the same names. The status is 1 if something is wrong.
"""

from __future__ import annotations

import json
import os
import sys
from itertools import islice
from pathlib import Path
from typing import Iterator

import batches
from typst_html_proved import Failure, check

Row = tuple[str, int, int, str]


def rows_of(path: str) -> Iterator[Row]:
    """Returns what is wrong with a page."""
    try:
        findings = check(Path(path).read_bytes(), limit=1000)
    except Failure as failure:
        line, column = (failure.place.line, failure.place.column) if failure.place else (0, 0)
        yield path, line, column, f"not read: {failure}"
    except OSError as error:
        yield path, 0, 0, f"not read: {error.strerror}"
    else:
        for dead in findings.dead_fragments:
            yield path, dead.place.line, dead.place.column, f'"#{dead.fragment}" leads nowhere'
        for repeated in findings.repeated_ids:
            yield path, repeated.place.line, repeated.place.column, f'an element before has the id "{repeated.id}"'


def check_batch(paths: list[str]) -> list[Row]:
    """Returns what is wrong with the pages of a batch."""
    return [row for path in paths for row in rows_of(path)]


def pages_in(folders: list[Path]) -> Iterator[str]:
    """Returns the pages below these folders, as they are found."""
    for folder in folders:
        for within, below, names in os.walk(folder.resolve()):
            below.sort()
            paths = (os.path.join(within, name) for name in sorted(names) if name.lower().endswith((".html", ".htm")))
            yield from filter(os.path.isfile, paths)


def batches_of(pages: Iterator[str], size: int) -> Iterator[list[str]]:
    """Returns the pages in batches."""
    while part := list(islice(pages, size)):
        yield part


def main() -> int:
    """Checks all pages."""
    parser = batches.parser(__doc__)
    parser.add_argument("folders", type=Path, nargs="+")
    words = parser.parse_args()
    for folder in words.folders:
        if not folder.is_dir():
            parser.error(f"{folder} is no folder")
    found: list[Row] = []
    with batches.engine(words) as client:
        progress = batches.Progress("pages", words.quiet)
        for batch, rows in batches.results(client, check_batch, batches_of(pages_in(words.folders), words.batch)):
            if isinstance(rows, BaseException):
                rows = [(path, 0, 0, f"not read: {type(rows).__name__}: {rows}") for path in batch]
            found += rows
            failed = len({path for path, *_ in rows})
            progress.add(len(batch) - failed, failed)
        progress.ended(client)
    for row in sorted(found):
        print(json.dumps(dict(zip(("page", "line", "column", "what"), row)), ensure_ascii=False))
    return 1 if found else 0


if __name__ == "__main__":
    sys.exit(main())
