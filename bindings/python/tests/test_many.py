"""Tests of the examples of many mails and pages, and of batches that fail, with dask.distributed (Debian's
python3-distributed, so Debian's Python runs it)."""

import json
import os
import subprocess
import sys
import tempfile
import unittest
from pathlib import Path

EXAMPLES = Path(__file__).resolve().parents[1] / "examples"
sys.path.append(str(EXAMPLES))

import dask  # noqa: E402

import batches  # noqa: E402
from write_mails import mail  # noqa: E402

RECORD = {"to": "a@example.org", "name": "Ada", "text": "x < y\n\nz", "link": "/?n=1"}

# Lines of records, and how they fail.
RECORDS = (
    (json.dumps(RECORD), None),
    (json.dumps({**RECORD, "text": "a\n\nb\1"}),
     "Refused: a character cannot be encoded in HTML (refusal 11 at 6, items[2][3][0])"),
    ("{", "JSONDecodeError: "),
    (json.dumps({"to": "a"}), "KeyError: 'name'"),
    (json.dumps({**RECORD, "text": 3}), "AttributeError: "),
    (json.dumps({**RECORD, "link": 3}), "BadInput: bad input at element(attrs[0]): the value of the attribute 'href' is of type int"),
    ("[1]", "TypeError: "),
    (json.dumps({**RECORD, "name": "B"}), None),
)  # fmt: skip

# Pages, and their findings.
PAGES = (
    ("a.html", b"<p id=x><a href=#x>up</a>", []),
    ("b/c.htm", b"<p>x\n<a href=#no>y</a>", [(2, 1, '"#no" leads nowhere')]),
    ("b/d.HTML", b"<p id=a><b id=a>", [(1, 9, 'an element before has the id "a"')]),
    ("e.html", b"<table>a", []),
    ("h.html", b"a<meta charset=big5>", [(1, 16, "not read: the page names an encoding that is not known (refusal 25 at 1:16)")]),
    ("f.html", b"\xef\xbb\xbfa\xff", [(1, 2, "not read: bad input: a byte that is no text at 1:2")]),
    ("g.txt", b"<table>a", None),
)


def run(program, *words):
    """Returns the status, standard output and standard error of an example."""
    command = [sys.executable, EXAMPLES / program, "--workers", "1", *words]
    done = subprocess.run(command, stdout=subprocess.PIPE, stderr=subprocess.PIPE, text=True)
    return done.returncode, done.stdout, done.stderr


def ends(number):
    """A task that ends in one of three ways."""
    if number == 3:
        raise ValueError("three")
    if number == 5:
        os._exit(1)
    return number * number


class Many(unittest.TestCase):
    def test_mails(self):
        with tempfile.TemporaryDirectory() as folder:
            records, mails = Path(folder, "records"), Path(folder, "mails")
            records.write_text("".join(f"{line}\n" for line, _ in RECORDS))
            status, _, report = run("write_mails.py", "--batch", "3", records, mails)
            self.assertEqual((status, report.splitlines()[-1].split(":")[0]), (1, "2 mails, 6 failed"))
            names = ("mails-000000001.jsonl", "mails-000000004.jsonl", "mails-000000007.jsonl", "failures.jsonl")
            self.assertEqual({path.name for path in mails.iterdir()}, set(names))
            written = [json.loads(line) for name in names[:3] for line in (mails / name).read_text().splitlines()]
            self.assertEqual(written, [mail(line.encode()) for line, failure in RECORDS if failure is None])
            self.assertIn("<p>x &lt; y</p><p>z</p>", written[0]["html"])
            rows = [json.loads(line) for line in (mails / "failures.jsonl").read_text().splitlines()]
            failures = {row["record"]: row["failure"] for row in rows}
            wanted = {number: failure for number, (_, failure) in enumerate(RECORDS, 1) if failure}
            self.assertEqual(failures.keys(), wanted.keys())
            for number, failure in wanted.items():
                self.assertTrue(failures[number].startswith(failure), failures[number])

    def test_records_that_are_made_up(self):
        with tempfile.TemporaryDirectory() as folder:
            status, _, report = run("write_mails.py", "1100", folder)
            self.assertEqual((status, report.splitlines()[-1].split(":")[0]), (1, "1099 mails, 1 failed"))

    def test_pages(self):
        with tempfile.TemporaryDirectory() as folder:
            for name, page, _ in PAGES:
                path = Path(folder, name)
                path.parent.mkdir(exist_ok=True)
                path.write_bytes(page)
            Path(folder, "h.html").symlink_to("h.html")
            status, output, report = run("check_pages.py", "--batch", "2", folder)
            found = [tuple(json.loads(line).values()) for line in output.splitlines()]
            top = Path(folder).resolve()
            self.assertEqual(found, [(str(top / name), *row) for name, _, rows in PAGES for row in rows or ()])
            self.assertEqual((status, report.splitlines()[-1].split(":")[0]), (1, "1 pages, 4 failed"))
            Path(folder, "i").mkdir()
            self.assertEqual(run("check_pages.py", Path(folder, "i"))[:2], (0, ""))
            status, output, report = run("check_pages.py", Path(folder, "none"))
            self.assertEqual((status, output, report.endswith("none is no folder\n")), (2, "", True))

    def test_batches_that_fail(self):
        words = batches.parser(None).parse_args(["--workers", "2"])
        # (a result of a worker that died is requested in vain)
        soon = {"distributed.comm.timeouts.connect": "2s"}
        with dask.config.set(soon), batches.engine(words) as client:
            found = dict(batches.results(client, ends, range(20)))
        errors = {number: type(it).__name__ for number, it in found.items() if isinstance(it, Exception)}
        self.assertEqual(errors, {3: "ValueError", 5: "KilledWorker"})
        self.assertEqual({number: it for number, it in found.items() if number not in errors},
                         {number: number * number for number in range(20) if number not in errors})  # fmt: skip


if __name__ == "__main__":
    unittest.main()
