"""Inputs for tools/measure: items and trees in the program's form of JSON. Sizes are in megabytes, and one size always
makes the same bytes.
"""

import json
from random import Random
from typing import Any, Callable

Item = list[Any]

WORDS = (
    "the of and a to in is that it was for on are as with his they at be this from I have or by one had not but what "
    "all were when we there can an your which their said if do will each about how up out them then she many some so "
    "these would other into has more her two like him see Überraschung naïve 東京 <tag> R&D \u00ad"
).split(" ")


def dumped(value: Item) -> bytes:
    """Returns the JSON of items or of a tree."""
    return json.dumps(value, ensure_ascii=False, separators=(",", ":")).encode()


def element(tag: str, children: list[Item], **attributes: str) -> Item:
    """Makes an element; an underscore ends the name of an attribute that is a word of Python."""
    return ["el", tag, [[name.rstrip("_"), value] for name, value in attributes.items()], children]


class Writer:
    """Writes paragraphs, lists, tables and code at random; for a tree, nothing that only items have."""

    def __init__(self, of_tree: bool = False) -> None:
        self.random = Random(15)
        self.of_tree = of_tree
        self.targets = 0

    def words(self, count: int) -> str:
        """Returns that many words."""
        return " ".join(self.random.choice(WORDS) for _ in range(count))

    def text(self, count: int) -> Item:
        """Returns a text of that many words; one of twenty has two spaces in a row."""
        words = self.words(count)
        return ["text", words.replace(" ", "  ", 1) if self.random.random() < 0.05 else words]

    def part(self) -> Item:
        """Returns a text, an element with a text, or a link."""
        chance, number = self.random.random(), self.random.randint
        if chance < 0.55:
            return self.text(number(4, 25))
        if chance < 0.75:
            return element(self.random.choice(["em", "strong", "code"]), [self.text(number(1, 4))])
        if chance < 0.9:
            words = self.text(number(1, 3))
            return element("a", [words], href=f"https://example.org/?q={number(0, 9999)}&x=1", class_="ref")
        return element("span", [self.text(2)], class_="note")

    def line(self) -> list[Item]:
        """Returns the content of a paragraph: parts, with a space between them."""
        parts = []
        for _ in range(self.random.randint(2, 7)):
            parts += [self.part(), ["text", " "] if self.of_tree else ["space"]]
        return parts[:-1]

    def block(self) -> list[Item]:
        """Returns a paragraph, a list, a table, lines of code, a block of paragraphs, or a heading that links lead to."""
        chance, number = self.random.random(), self.random.randint
        if chance < 0.6:
            return [element("p", self.line())]
        if chance < 0.75:
            return [element("ul", [element("li", self.line()) for _ in range(number(2, 6))], class_="list")]
        if chance < 0.82:
            row = lambda: element("tr", [element("td", [self.text(3)]) for _ in range(4)])
            return [element("table", [element("tbody", [row() for _ in range(number(2, 5))])])]
        if chance < 0.9:
            code = "\n".join("    " + self.words(6) for _ in range(number(3, 9)))
            return [element("pre", [element("code", [["text", code]])])]
        if chance < 0.95 and not self.of_tree:
            return [["block", [element("p", self.line()), element("p", self.line())]]]
        self.targets += 1
        return [["start", self.targets, self.targets], element("h2", [self.text(4)]), ["end", self.targets]]

    def sections(self, size: float) -> list[Item]:
        """Returns sections of twelve blocks each."""
        written, found = 0, []
        while written < size * 1e6:
            found.append(element("section", [item for _ in range(12) for item in self.block()]))
            written += len(dumped(found[-1])) + 1
        return found


def items(size: float) -> list[Item]:
    """Returns sections, for `doc`."""
    return Writer().sections(size)


def document(size: float) -> Item:
    """Returns the same as one element, for `tree`."""
    return element("html", [element("body", Writer(of_tree=True).sections(size))])


def deep(size: float) -> Item:
    """Returns a text, wrapped sixty times in a `div` with thousands of empty `p` behind it."""
    node: Item = ["text", "x"]
    for _ in range(60):
        node = element("div", [node, *(element("p", []) for _ in range(int(size * 1e6 / 60 / 16)))])
    return node


def blocks(depth: int) -> list[Item]:
    """Returns nested blocks."""
    return [["block", [*blocks(depth - 1), ["text", "x"]]]] if depth else [["text", "y"]]


def paragraph(text: str) -> list[Item]:
    """Returns a paragraph with one text."""
    return [element("p", [["text", text]])]


def of_many(length: int, make: Callable[[int], list[Item]]) -> Callable[[float], list[Item]]:
    """Returns as many items, made by number, as fit if each has that length."""
    return lambda size: [item for number in range(int(size * 1e6 / length)) for item in make(number)]


def labels(size: float) -> list[Item]:
    """Returns elements with the names that places get, and as many places."""
    taken = of_many(40, lambda k: [element("p", [], id=f"loc-{k}")])(size)
    return taken[1:] + of_many(40, lambda k: [["start", k, k], ["text", "x"], ["break"]])(size)


# Shapes that could take more than linear time, for `doc`.
SHAPES: dict[str, Callable[[float], list[Item]]] = {
    "empty link targets, each with an end": of_many(40, lambda k: [["start", k, k], ["end", k]]),
    "starts that one element serves, all targets": lambda size: of_many(20, lambda k: [["start", k, k]])(size) + [["text", "x"]],
    "elements with the `id` `loc-k`, as many targets to be named": labels,
    "one run of blanks": lambda size: paragraph("a" + " " * int(size * 1e6) + "b"),
    "lone spaces between words": lambda size: [element("p", of_many(20, lambda _: [["text", "w"], ["space"]])(size))],
    "one long text": lambda size: paragraph(Writer().words(int(size * 1e6 / 5))),
    "blocks in one another, up to the limit": of_many(700, lambda _: blocks(24)),
    "texts and elements by turns": of_many(20, lambda k: [["text", "x"] if k % 2 else element("em", [["text", "y"]])]),
}

# Kinds of characters, each repeated as that many bytes, for `doc`.
KINDS: dict[str, Callable[[float], list[Item]]] = {
    "words": lambda size: paragraph(Writer().words(int(size * 2.5e5))[: int(size * 1e6)]),
    "`<` and `&`": lambda size: paragraph("<&" * int(size * 5e5)),
    "é": lambda size: paragraph("é" * int(size * 5e5)),
    "lone spaces": lambda size: paragraph("w " * int(size * 5e5)),
    "tabs and runs of blanks": lambda size: paragraph("w\tw  " * int(size * 1e6 / 6)),
    "U+200B": lambda size: paragraph("w\u200b" * int(size * 2.5e5)),
    "names of one's own": of_many(34, lambda k: [["el", f"x-{k % 1000}", [[f"data-{k % 1000}", ""]], []]]),
}

# Texts, for `doc`, that are repeated in one and whose characters each become nodes; and the bytes of these for each
# character: 136 and, if it is a text, those of a string of one character. A blank before a line feed is preserved: it is in
# a `span` of its own, with its list and a `style`.
ALONE: dict[str, tuple[str, int]] = {
    "blanks": (" ", 168), "line feeds": ("\n", 136), "U+200B": ("\u200b", 168), "blanks and line feeds by turns": (" \n", 272),
}  # fmt: skip
