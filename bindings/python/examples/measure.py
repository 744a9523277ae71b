#!/usr/bin/env python3
"""measure.py [MAILS [PAGES]]: measures the other examples with 1, 2 and 4 workers, by default on 1,000,000 mails and
100,000 pages. For each number of workers it prints how many are done in a second, that as a part of as many times the
number of one worker, and the sum of the most memory that each worker had. Seconds count from when the workers are there.

The last column is what dask leaves of the speed of as many plain processes, which do the same batches right before:
where the processors slow one another down, these do not scale either.
"""

from __future__ import annotations

import re
import subprocess
import sys
import tempfile
import time
from concurrent.futures import ProcessPoolExecutor
from pathlib import Path
from typing import Any, Callable, Iterator, NamedTuple

import check_pages
import write_mails
from batches import BATCH

HERE = Path(__file__).resolve().parent
WORKERS = (1, 2, 4)

PAGE = '<!DOCTYPE html><title>{0}</title><h1 id=top>{0}</h1>{1}<p><a href="#top">Up</a> <a href="#none">Gone</a></p>'
PARAGRAPH = '<p id=p{0}>Salt &amp; vinegar are back, <em>at last</em>: see <a href="#p{0}">here</a>.</p>\n'


class Work(NamedTuple):
    """An example: its program and arguments, and what its workers do, with the batches for that."""

    program: str
    words: list[str]
    task: Callable[[Any], Any]
    batches: Callable[[], Iterator[Any]]


def make_pages(folder: Path, count: int) -> None:
    """Makes that many pages of some 4,000 bytes, in folders of 1,000."""
    body = "".join(PARAGRAPH.format(number) for number in range(40))
    for number in range(count):
        path = folder / f"{number // 1000}" / f"{number}.html"
        path.parent.mkdir(parents=True, exist_ok=True)
        path.write_text(PAGE.format(number, body))


def measured(work: Work, workers: int) -> tuple[float, float]:
    """Returns the number a second that an example reports, and the megabytes that its workers use."""
    call = [sys.executable, str(HERE / work.program), "--quiet", "--workers", str(workers), *work.words]
    report = subprocess.run(call, stdout=subprocess.DEVNULL, stderr=subprocess.PIPE, text=True).stderr
    done, failed, seconds, megabytes = re.findall(r"^(\d+) \w+, (\d+) failed: ([\d.]+) s, \d+ a second, (\d+) MB$", report, re.M)[-1]
    return (int(done) + int(failed)) / float(seconds), float(megabytes)


def plain(work: Work, count: int, workers: int) -> float:
    """Returns the number a second that as many processes do without dask."""
    with ProcessPoolExecutor(workers) as pool:
        # (processes start with the first tasks)
        list(pool.map(work.task, [batch for batch, _ in zip(work.batches(), range(workers))]))
        begun = time.monotonic()
        list(pool.map(work.task, work.batches()))
        return count / (time.monotonic() - begun)


def main() -> None:
    """Prints the table."""
    given = [int(word) for word in sys.argv[1:]]
    mails, pages = [*given, *(1_000_000, 100_000)[len(given) :]]
    with tempfile.TemporaryDirectory() as name:
        written, site = Path(name) / "mails", Path(name) / "pages"
        written.mkdir()
        make_pages(site, pages)
        works = {
            (mails, "mails"): Work(
                *("write_mails.py", [str(mails), str(written)], write_mails.write_batch),
                lambda: write_mails.batches_of(str(mails), BATCH, written),
            ),
            (pages, "pages"): Work(
                *("check_pages.py", [str(site)], check_pages.check_batch),
                lambda: check_pages.batches_of(check_pages.pages_in([site]), BATCH),
            ),
        }
        print("what | workers | a second | of so many times one | MB | of plain processes\n---|---|---|---|---|---")
        for (count, what), work in works.items():
            one = 0.0
            for workers in WORKERS:
                alone = plain(work, count, workers)
                speed, megabytes = measured(work, workers)
                one = one or speed
                row = f"{speed:.0f} | {speed / one / workers:.2f} | {megabytes:.0f} | {speed / alone:.2f}"
                print(f"{count} {what} | {workers} | {row}", flush=True)


if __name__ == "__main__":
    main()
