"""The words of the refusals."""

from __future__ import annotations

from types import MappingProxyType
from typing import Final, Mapping

WORDS: Final[Mapping[int, str]] = MappingProxyType({
    1: "tag name must not be empty",
    2: "a character is not valid in a tag name",
    3: "custom element name must start with a lowercase letter",
    4: "custom element name must not contain uppercase letters",
    5: "name is reserved and not valid for a custom element",
    6: "attribute name must not be empty",
    7: "a character is not valid in an attribute name",
    8: "a body, or an element of a page, stands deeper than the limit",
    9: "an html or body element stands among other nodes",
    10: "footnotes stand beside an html or body element of the document's own",
    11: "a character cannot be encoded in HTML",
    12: "a void element has a child",
    13: "a raw text element has a child that is no text",
    14: "a raw text would end its element",
    15: "a frame is refused",
    25: "the page names an encoding that is not known",
    28: "an element has too many attributes",
    40: "too many elements are made again",
})
"""The words for what is wrong, by the number of the refusal. A page that is checked has refusals 8 and from 25 on."""
