"""The rows of crates/tests_rows: the input of a run or a call, and its result.

A row is a line of three fields, `words | input | output`, cut at the first two ` | `. Lines that begin with `#`
are comments. The input is taken as it is, unless `escaped` is the last of the words: then it is read like the
output, and `\\xff` is a byte. In the output `\\n`, `\\r`, `\\t`, `\\\\` and `\\u{20}` stand for characters. In
both, `⟨500*<p>⟩` stands for that many copies, in which each `%` is the number of the copy, from 1, and
`⟨100..fdcf⟩` for each character from U+0100 to U+FDCF.
"""

import re
from hashlib import sha256
from pathlib import Path
from typing import Callable, Iterator, NamedTuple

DATA = Path(__file__).resolve().parent.parent / "crates" / "tests_rows" / "data"

# The first words of rows that call the library. Any other row is a run of the program.
CALLS = frozenset(
    "kinds attribute cast construct address decoded-fragment place-in nodes block-fragment inline-fragment math-fragment fragment-text spans bare document links anchors positions dead-links "
    "distinct-ids list-lines list-page read as-browsers page-places fragment-as-browsers clean page-text items-text dead-fragments repeated-ids misnested "
    "c-write c-document c-fragment c-dead-links c-unused c-check c-links c-version".split()
)

HEAD = '<meta charset="utf-8">', '<meta name="viewport" content="width=device-width, initial-scale=1">'

# The texts around the outputs, by the words of a run.
FRAMES = {
    ("tree",): ("<!DOCTYPE html>", ""),
    ("tree", "--pretty"): ("<!DOCTYPE html>\n", "\n"),
    ("doc",): (f'<!DOCTYPE html><html lang="en"><head>{"".join(HEAD)}</head><body>', "</body></html>"),
    ("doc", "--pretty"): (
        f'<!DOCTYPE html>\n<html lang="en">\n  <head>\n    {HEAD[0]}\n    {HEAD[1]}\n  </head>\n  <body>',
        "\n  </body>\n</html>\n",
    ),
}

ESCAPE = re.compile(r"\\(?:([nrt\\])|u\{([0-9a-f]+)\}|x([89a-f][0-9a-f])|x([0-7][0-9a-f])|)")
FORM = re.compile("⟨([^⟩]*)⟩")


class Row(NamedTuple):
    """A row with its fields expanded, and its place."""

    file: str
    line: int
    words: tuple[str, ...]
    input: bytes
    output: str

    @property
    def place(self) -> str:
        """Returns the file and the line."""
        return f"{self.file}:{self.line}"

    @property
    def is_run(self) -> bool:
        """Returns whether the row is a run of the program, rather than a call of the library."""
        return not self.words or self.words[0] not in CALLS


class Answer(NamedTuple):
    """The exit status of a run, its output, the number and the span of a refusal, and the place of a bad input, which
    the library reports and the program does not: the list in which the form is left is its span, and an input that
    is no JSON has a line and a column."""

    status: int
    text: str
    number: int = 0
    span: int = 0
    line: int = 0
    column: int = 0


def answer(row: Row) -> Answer:
    """Returns how the run of a row ends."""
    if refusal := re.fullmatch(r"refused (\d+) at (\d+)", row.output):
        number, span = map(int, refusal.groups())
        return Answer(1, f"refused: {number} at {span}\n", number, span)
    if row.output == "wrong words":
        return Answer(2, "bad input\n")
    if bad := re.fullmatch(r"bad input at (?:(\d+)|line (\d+) column (\d+))", row.output):
        span, line, column = (int(number or 0) for number in bad.groups())
        return Answer(2, "bad input\n", 0, span, line, column)
    if row.output.startswith("<!DOCTYPE html>"):
        return Answer(0, row.output)
    before, behind = FRAMES[row.words]
    return Answer(0, before + row.output + behind)


def character(escape: re.Match[str]) -> str:
    """Returns the character of an escape. A byte above 127 is a lone surrogate, as Python decodes it."""
    letter, code, high, low = escape.groups()
    if letter:
        return {"n": "\n", "r": "\r", "t": "\t", "\\": "\\"}[letter]
    if high:
        return chr(0xDC00 + int(high, 16))
    if not (code or low):
        raise ValueError(f"no escape: {escape.string[escape.start():][:20]}")
    return chr(int(code or low, 16))


def unescaped(text: str) -> str:
    """Returns the text with its escapes replaced."""
    return ESCAPE.sub(character, text)


def copies(form: str, plain: Callable[[str], str]) -> str:
    """Returns the copies or the range of characters."""
    times, star, text = form.partition("*")
    if not star:
        first, last = (int(code, 16) for code in form.split(".."))
        return "".join(map(chr, range(first, last + 1)))
    text = plain(text)
    if "%" not in text:
        return text * int(times)
    return "".join(text.replace("%", str(number)) for number in range(1, int(times) + 1))


def expanded(field: str, plain: Callable[[str], str]) -> bytes:
    """Returns the bytes of a field, whose texts that function reads."""
    parts = FORM.split(field)
    parts[::2] = map(plain, parts[::2])
    parts[1::2] = (copies(form, plain) for form in parts[1::2])
    return "".join(parts).encode(errors="surrogateescape")


def read(file: str, number: int, line: str) -> Row:
    """Returns the row that a line spells."""
    first, *rest = line.split(" | ", 2)
    if len(rest) == 1 and rest[0].endswith(" |"):
        rest = [rest[0][:-2], ""]
    if len(rest) != 2:
        raise ValueError(f"{file}:{number}: no row of three fields")
    words = first.split()
    escaped = words[-1:] == ["escaped"]
    words = tuple(words[:-1] if escaped else words)
    given = expanded(rest[0], unescaped if escaped else str)
    return Row(file, number, words, given, expanded(rest[1], unescaped).decode())


def rows() -> Iterator[Row]:
    """Returns all rows, one at a time, since some are large. None is repeated."""
    places: dict[tuple[tuple[str, ...], bytes], str] = {}
    for path in sorted(DATA.glob("*.rows")):
        for number, line in enumerate(path.read_text(encoding="utf-8").split("\n"), 1):
            if line and not line.startswith("#"):
                row = read(path.name, number, line)
                place = places.setdefault((row.words, sha256(row.input).digest()), row.place)
                if place != row.place:
                    raise ValueError(f"{row.place}: the row stands at {place}")
                yield row
