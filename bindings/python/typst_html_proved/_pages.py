"""The findings, ids and links that the library reports of pages."""

from __future__ import annotations

from dataclasses import dataclass
from typing import Any, Callable, Sequence, TypeVar

Found = TypeVar("Found")


@dataclass(frozen=True)
class Place:
    """A place in a page. Its text is `line:column`.

    >>> str(Place(offset=29, line=2, column=11))
    '2:11'
    """

    offset: int
    """The number of bytes of the page's text, in UTF-8, before it. (For bytes that have no text, the number of bytes.)"""
    line: int
    """Its line, counted from 1. A line ends with a line feed, a carriage return, or both in the order CR LF."""
    column: int
    """Its column, counted from 1 in characters. A byte order mark at the beginning of the page does not count."""

    def __str__(self) -> str:
        return f"{self.line}:{self.column}"


@dataclass(frozen=True)
class DeadFragment:
    """A link to a fragment of its own page that leads nowhere.

    >>> check("<a href=#salt>salt</a>").dead_fragments[0].fragment
    'salt'
    """

    path: tuple[int, ...]
    """The index of each child on the path from the root to the link. Texts count."""
    fragment: str
    """The text behind `#`, as it is written."""
    place: Place
    """The place where the link's start tag begins."""


@dataclass(frozen=True)
class RepeatedId:
    """An id that an earlier element of its page has.

    >>> check("<p id=a></p>\\n<p id=a></p>").repeated_ids[0]
    RepeatedId(path=(1, 2), id='a', place=Place(offset=13, line=2, column=1))
    """

    path: tuple[int, ...]
    """The index of each child on the path from the root to the element. Texts count."""
    id: str
    """The id."""
    place: Place
    """The place where the element's start tag begins."""


@dataclass(frozen=True)
class Misnested:
    """A node that would make a browser build another tree if the tree of the page were written. The browser's
    parser closes elements where others begin, moves what has no place in a table, and more.

    >>> check("<p><table></table>").misnested[0].why  # without a document type a table stays in a p
    'closes the p that it stands in'
    """

    path: tuple[int, ...]
    """The index of each child on the path from the root to the node. Texts count."""
    rule: str
    """The name of the first rule that it breaks, such as `ClosesParagraph`."""
    why: str
    """What becomes of it."""
    place: Place
    """The place where the element's start tag begins, or for a text that of the element that holds it."""


@dataclass(frozen=True)
class Findings:
    """What is wrong in a page, in order. It is false if nothing is.

    >>> bool(check("<p id=a><a href=#a>up</a>")), bool(check("<a href=#b>up</a>"))
    (False, True)
    """

    dead_fragments: Sequence[DeadFragment] = ()
    repeated_ids: Sequence[RepeatedId] = ()
    misnested: Sequence[Misnested] = ()

    def __bool__(self) -> bool:
        return bool(self.dead_fragments or self.repeated_ids or self.misnested)


@dataclass(frozen=True)
class PageId:
    """The id of an element of a page.

    >>> links("<p id=a></p>").ids[0]
    PageId(path=(1, 0), id='a', place=Place(offset=0, line=1, column=1))
    """

    path: tuple[int, ...]
    """The index of each child on the path from the root to the element. Texts count."""
    id: str
    """The id."""
    place: Place
    """The place where the element's start tag begins."""


@dataclass(frozen=True)
class PageName:
    """The name of an `a` of a page, to which a link may lead as to an id.

    >>> links("<a name=b></a>").names[0].name
    'b'
    """

    path: tuple[int, ...]
    """The index of each child on the path from the root to the element. Texts count."""
    name: str
    """The name."""
    place: Place
    """The place where the element's start tag begins."""


@dataclass(frozen=True)
class PageLink:
    """A link of a page: an `a` or `area` with an `href`.

    >>> links("<a href='c.html?d&amp;e#f'>g</a>").links[0].href
    'c.html?d&e#f'
    """

    path: tuple[int, ...]
    """The index of each child on the path from the root to the element. Texts count."""
    href: str
    """Its address, as it is written."""
    place: Place
    """The place where the element's start tag begins."""


@dataclass(frozen=True)
class PageLinks:
    """The parts of a page that a check of links between pages needs, each in order.

    >>> links("<p>Salt</p>") == PageLinks()
    True
    """

    ids: Sequence[PageId] = ()
    """The ids of its elements except empty ones."""
    names: Sequence[PageName] = ()
    """The names of its `a` elements except empty ones."""
    links: Sequence[PageLink] = ()


def _all(listed: list[dict[str, Any]], found: Callable[[tuple[int, ...], dict[str, Any], Place], Found]) -> tuple[Found, ...]:
    """Returns the findings of a list with whole paths. The library reports for each path how many indices it keeps of the
    one before, and the rest."""
    path: list[int] = []
    made = []
    for it in listed:
        path[it["keeps"] :] = it["path"]
        made.append(found(tuple(path), it, Place(it["offset"], it["line"], it["column"])))
    return tuple(made)


def findings_of(report: dict[str, list[dict[str, Any]]]) -> Findings:
    """Returns the findings that the library reports."""
    return Findings(
        _all(report["dead_fragments"], lambda path, it, place: DeadFragment(path, it["fragment"], place)),
        _all(report["repeated_ids"], lambda path, it, place: RepeatedId(path, it["id"], place)),
        _all(report["misnested"], lambda path, it, place: Misnested(path, it["rule"], it["why"], place)),
    )


def links_of(report: dict[str, list[dict[str, Any]]]) -> PageLinks:
    """Returns the ids, the names and the links that the library reports."""
    return PageLinks(
        _all(report["ids"], lambda path, it, place: PageId(path, it["id"], place)),
        _all(report["names"], lambda path, it, place: PageName(path, it["name"], place)),
        _all(report["links"], lambda path, it, place: PageLink(path, it["href"], place)),
    )
