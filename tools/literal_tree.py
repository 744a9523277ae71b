"""What tools/literal_reading.py rests on: the tokens of the pages of tools/random_pages, their tree, and the state of
tree construction with the steps that its insertion modes share (HTML Standard 13.2.4 and 13.2.6.1 to 13.2.6.3).

All is written as the standard says it, step by step and in its terms. Parse errors leave no trace, a page is no
fragment, scripting is disabled, and the contents of a `template` are its children. It is a module, not a command.
"""

import re
from dataclasses import dataclass, field
from enum import Enum, auto
from functools import cache
from typing import Callable

HTML, SVG, MATHML = "html", "svg", "math"
SPECIAL = {
    HTML: """address applet area article aside base basefont bgsound blockquote body br button caption center col
        colgroup dd details dir div dl dt embed fieldset figcaption figure footer form frame frameset h1 h2 h3 h4 h5
        h6 head header hgroup hr html iframe img input keygen li link listing main marquee menu meta nav noembed
        noframes noscript object ol p param plaintext pre script search section select source style summary table
        tbody td template textarea tfoot th thead title tr track ul wbr xmp""",
    MATHML: "mi mo mn ms mtext annotation-xml",
    SVG: "foreignObject desc title",
}
SCOPE = {
    HTML: "applet caption html table td th marquee object select template",
    MATHML: "mi mo mn ms mtext annotation-xml",
    SVG: "foreignObject desc title",
}
TABLE_SCOPE = {HTML: "html table template", MATHML: "", SVG: ""}
IMPLIED_END_TAGS = "dd dt li optgroup option p rb rp rt rtc"
THOROUGHLY_IMPLIED = IMPLIED_END_TAGS + " caption colgroup tbody td tfoot th thead tr"
SPACE = "\t\n\f\r "


@cache
def words(text: str) -> frozenset[str]:
    """Returns the words of a text."""
    return frozenset(text.split())


class Kind(Enum):
    """The kinds of tokens (13.2.5)."""

    DOCTYPE = auto()
    START_TAG = auto()
    END_TAG = auto()
    COMMENT = auto()
    CHARACTER = auto()
    END_OF_FILE = auto()


@dataclass(frozen=True)
class Token:
    """A token. Its name is the name of a tag, or a character."""

    kind: Kind
    name: str = ""
    attributes: dict[str, str] = field(default_factory=dict)
    self_closing: bool = False

    def is_start(self, names: str) -> bool:
        """Returns whether it is a start tag whose name is one of these words."""
        return self.kind is Kind.START_TAG and self.name in words(names)

    def is_end(self, names: str) -> bool:
        """Returns whether it is an end tag whose name is one of these words."""
        return self.kind is Kind.END_TAG and self.name in words(names)

    def is_space(self) -> bool:
        """Returns whether it is a character token of white space."""
        return self.kind is Kind.CHARACTER and self.name in SPACE


# the rules of an insertion mode
Mode = Callable[[Token], None]


def start_tag(name: str) -> Token:
    """Returns a start tag without attributes."""
    return Token(Kind.START_TAG, name)


class State(Enum):
    """The states of the tokenizer that tree construction sets (13.2.5)."""

    DATA = auto()
    RCDATA = auto()
    RAWTEXT = auto()
    SCRIPT_DATA = auto()
    PLAINTEXT = auto()


class Tokenizer:
    """Makes tokens of a page, whose parts are those of tools/random_pages: it has no other forms of tags, comments and
    references. In these parts no comment is left open, so that a script is read like raw text."""

    TAG = re.compile(r"<(/?)([A-Za-z][^\t\n\f />]*)(?: ([a-z]+)(?:=([^ >]*))?)?(/?)>")
    OTHER_MARKUP = {
        re.compile(r"<!DOCTYPE html>"): Kind.DOCTYPE,
        re.compile(r"<!--.*?-->|<\?[^>]*>"): Kind.COMMENT,
        re.compile(r"</>"): None,
    }
    REFERENCES = {"&amp;": "&", "&#0;": "\ufffd"}

    def __init__(self, page: str) -> None:
        self.page, self.at = page, 0
        self.state = State.DATA
        self.last_start_tag = ""

    def next_token(self) -> Token:
        """Returns the next token."""
        if self.at == len(self.page):
            return Token(Kind.END_OF_FILE)
        if self.state not in (State.DATA, State.PLAINTEXT) and self.is_at_appropriate_end_tag():
            self.state = State.DATA
        if self.state is State.DATA and self.page[self.at] == "<":
            return self.markup()
        for reference, character in self.REFERENCES.items():
            if self.state in (State.DATA, State.RCDATA) and self.page.startswith(reference, self.at):
                self.at += len(reference)
                return Token(Kind.CHARACTER, character)
        self.at += 1
        return Token(Kind.CHARACTER, self.page[self.at - 1])

    def is_at_appropriate_end_tag(self) -> bool:
        """Returns whether an appropriate end tag token stands here: one with the name of the last start tag."""
        end_tag = re.compile(f"</{self.last_start_tag}[\t\n\f />]", re.IGNORECASE)
        return end_tag.match(self.page, self.at) is not None

    def markup(self) -> Token:
        """Returns the token that a `<` in the data state begins, or the one behind if it is `</>`, which gives none."""
        for pattern, kind in self.OTHER_MARKUP.items():
            if found := pattern.match(self.page, self.at):
                self.at = found.end()
                return Token(kind) if kind else self.next_token()
        found = self.TAG.match(self.page, self.at)
        if found is None:
            raise ValueError(f"no part of a page of tools/random_pages: {self.page[self.at:]!r}")
        self.at = found.end()
        end, name, attribute, value, solidus = found.groups()
        if end:
            return Token(Kind.END_TAG, name.lower())
        self.last_start_tag = name.lower()
        return Token(Kind.START_TAG, name.lower(), {attribute: value or ""} if attribute else {}, bool(solidus))


@dataclass(eq=False)
class Node:
    """A node of a tree."""

    parent: "Element | None" = field(default=None, init=False)

    def remove(self) -> None:
        """Takes the node from its parent."""
        if self.parent:
            self.parent.children.remove(self)
            self.parent = None


class Comment(Node):
    """A comment."""


@dataclass(eq=False)
class Text(Node):
    """A text."""

    data: str


@dataclass(eq=False)
class Element(Node):
    """An element, and the token for which it was created; or the document."""

    namespace: str
    token: Token
    attributes: dict[str, str] = field(default_factory=dict)
    children: list[Node] = field(default_factory=list)

    @property
    def name(self) -> str:
        """Its name."""
        return self.token.name

    def append(self, node: Node) -> None:
        """Makes a node its last child."""
        self.insert(node, None)

    def insert(self, node: Node, before: Node | None) -> None:
        """Makes a node a child, immediately before another, or the last one."""
        node.remove()
        self.children.insert(self.children.index(before) if before else len(self.children), node)
        node.parent = self

    def add_attributes(self, token: Token) -> None:
        """Adds each attribute of a token that it has not."""
        for name, value in token.attributes.items():
            self.attributes.setdefault(name, value)

    def is_html(self, names: str) -> bool:
        """Returns whether it is an HTML element whose name is one of these words."""
        return self.namespace == HTML and self.name in words(names)

    def is_one_of(self, names: dict[str, str]) -> bool:
        """Returns whether its name is one of the words for its namespace."""
        return self.name in words(names[self.namespace])

    def is_like(self, other: "Element") -> bool:
        """Returns whether it has the name, the namespace and the attributes of another."""
        return (self.name, self.namespace, self.attributes) == (other.name, other.namespace, other.attributes)

    def is_special(self) -> bool:
        """Returns whether it is of the special category (13.2.4.2)."""
        return self.is_one_of(SPECIAL)

    def is_mathml_text_integration_point(self) -> bool:
        """Returns whether it is a MathML text integration point (13.2.6)."""
        return self.namespace == MATHML and self.name in words("mi mo mn ms mtext")

    def is_html_integration_point(self) -> bool:
        """Returns whether it is an HTML integration point (13.2.6)."""
        if self.namespace == MATHML and self.name == "annotation-xml":
            return self.token.attributes.get("encoding", "").lower() in ("text/html", "application/xhtml+xml")
        return self.namespace == SVG and self.name in words("foreignObject desc title")


class Mark(Enum):
    """What stands in the list of active formatting elements beside elements."""

    MARKER = auto()
    # the bookmark of the adoption agency algorithm, while it runs
    BOOKMARK = auto()


@dataclass
class Place:
    """A place for a node: in an element, immediately before a child of it, or behind the last one."""

    parent: Element
    before: Element | None = None


class Construction:
    """The state of tree construction (13.2.4), and the steps that insertion modes share."""

    def __init__(self, page: str) -> None:
        self.tokenizer = Tokenizer(page)
        self.document = Element("", start_tag("#document"))
        self.quirks_mode = False
        self.stack: list[Element] = []
        self.formatting: list[Element | Mark] = []
        self.head: Element | None = None
        self.form: Element | None = None
        self.frameset_ok = True
        self.foster_parenting = False
        self.mode: Mode
        self.original_mode: Mode
        self.template_modes: list[Mode] = []
        self.pending_characters: list[Token] = []
        # whether the next token is ignored if it is a line feed
        self.ignores_line_feed = False
        self.is_stopped = False

    # The stack of open elements (13.2.4.2)

    @property
    def current(self) -> Element:
        """The current node, which is the adjusted current node too, since a page is no fragment."""
        return self.stack[-1]

    def has_open(self, name: str) -> bool:
        """Returns whether an element of that name is on the stack of open elements."""
        return any(element.is_html(name) for element in self.stack)

    def has_in_scope(self, target: str | Element, scope: dict[str, str] | None = None, more: str = "") -> bool:
        """Returns whether the stack has an element in a scope: that one, or one whose name is one of these words. The
        scope is the given one, if any, and more HTML elements."""
        for node in reversed(self.stack):
            if node is target or isinstance(target, str) and node.is_html(target):
                return True
            if node.is_one_of(scope or SCOPE) or node.is_html(more):
                return False
        return False

    def has_in_list_item_scope(self, name: str) -> bool:
        """Returns whether the stack has an element of that name in list item scope."""
        return self.has_in_scope(name, more="ol ul")

    def has_in_button_scope(self, name: str) -> bool:
        """Returns whether the stack has an element of that name in button scope."""
        return self.has_in_scope(name, more="button")

    def has_in_table_scope(self, names: str) -> bool:
        """Returns whether the stack has an element with one of these names in table scope."""
        return self.has_in_scope(names, TABLE_SCOPE)

    def pop_until(self, target: str | Element) -> None:
        """Pops elements until that one has been popped, or one whose name is one of these words."""
        while True:
            popped = self.stack.pop()
            if popped is target or isinstance(target, str) and popped.is_html(target):
                return

    def remove_from_stack(self, element: Element) -> None:
        """Removes an element from the stack, if it is there."""
        if element in self.stack:
            self.stack.remove(element)

    # The list of active formatting elements (13.2.4.3)

    def since_last_marker(self) -> list[Element]:
        """Returns the elements of the list behind its last marker, or all of them, the last one first."""
        found: list[Element] = []
        for entry in reversed(self.formatting):
            if entry is Mark.MARKER:
                break
            assert isinstance(entry, Element)
            found.append(entry)
        return found

    def push_formatting(self, element: Element) -> None:
        """Pushes onto the list of active formatting elements, in which there are at most three alike."""
        same = [other for other in self.since_last_marker() if other.is_like(element)]
        if len(same) >= 3:
            self.formatting.remove(same[-1])
        self.formatting.append(element)

    def is_marker_or_open(self, entry: Element | Mark) -> bool:
        """Returns whether an entry of the list is a marker, or an element that is on the stack of open elements."""
        return entry is Mark.MARKER or entry in self.stack

    def reconstruct_formatting(self) -> None:
        """Reconstructs the active formatting elements."""
        if not self.formatting or self.is_marker_or_open(self.formatting[-1]):
            return
        at = len(self.formatting) - 1
        # rewind
        while at > 0:
            at -= 1
            if self.is_marker_or_open(self.formatting[at]):
                # advance
                at += 1
                break
        while True:
            # create
            entry = self.formatting[at]
            assert isinstance(entry, Element)
            self.formatting[at] = self.insert_element(entry.token)
            if at == len(self.formatting) - 1:
                return
            at += 1

    def insert_marker(self) -> None:
        """Inserts a marker at the end of the list."""
        self.formatting.append(Mark.MARKER)

    def clear_formatting(self) -> None:
        """Clears the list up to the last marker."""
        while self.formatting and self.formatting.pop() is not Mark.MARKER:
            pass

    def last_formatting(self, name: str) -> Element | None:
        """Returns the last element of that name between the end of the list and the last marker, or its start."""
        return next((element for element in self.since_last_marker() if element.name == name), None)

    def remove_from_formatting(self, element: Element) -> None:
        """Removes an element from the list, if it is there."""
        if element in self.formatting:
            self.formatting.remove(element)

    # Creating and inserting nodes (13.2.6.1)

    def appropriate_place(self, override_target: Element | None = None) -> Place:
        """Returns the appropriate place for inserting a node."""
        target = override_target or self.current
        if self.foster_parenting and target.is_html("table tbody tfoot thead tr"):
            return self.foster_place()
        return Place(target)

    def foster_place(self) -> Place:
        """Returns the place at which foster parenting inserts a node."""
        last_template = next((element for element in reversed(self.stack) if element.is_html("template")), None)
        last_table = next((element for element in reversed(self.stack) if element.is_html("table")), None)
        if last_template and (last_table is None or self.stack.index(last_template) > self.stack.index(last_table)):
            return Place(last_template)
        if last_table is None:
            return Place(self.stack[0])
        if last_table.parent:
            return Place(last_table.parent, last_table)
        return Place(self.stack[self.stack.index(last_table) - 1])

    def create_element(self, token: Token, namespace: str = HTML) -> Element:
        """Creates an element for a token."""
        return Element(namespace, token, dict(token.attributes))

    def insert_element(self, token: Token, namespace: str = HTML) -> Element:
        """Inserts a foreign element for a token; an HTML element, if no namespace is given."""
        element, place = self.create_element(token, namespace), self.appropriate_place()
        place.parent.insert(element, place.before)
        self.stack.append(element)
        return element

    def insert_void_element(self, token: Token) -> None:
        """Inserts an HTML element for a token, and immediately pops it off the stack."""
        self.insert_element(token)
        self.stack.pop()

    def insert_character(self, token: Token) -> None:
        """Inserts a character."""
        place = self.appropriate_place()
        children = place.parent.children
        at = children.index(place.before) if place.before else len(children)
        if at > 0 and isinstance(previous := children[at - 1], Text):
            previous.data += token.name
        else:
            place.parent.insert(Text(token.name), place.before)

    def insert_comment(self, position: Element | None = None) -> None:
        """Inserts a comment, as the last child of a node if one is given."""
        place = Place(position) if position else self.appropriate_place()
        place.parent.insert(Comment(), place.before)

    # Parsing elements that contain only text (13.2.6.2)

    def parse_text(self, token: Token, state: State, text_mode: Mode) -> None:
        """Follows the generic raw text element parsing algorithm, or that for RCDATA, by the state."""
        self.insert_element(token)
        self.tokenizer.state = state
        self.original_mode = self.mode
        self.mode = text_mode

    # Closing elements that have implied end tags (13.2.6.3)

    def generate_implied_end_tags(self, but: str = "", names: str = IMPLIED_END_TAGS) -> None:
        """Generates implied end tags, except for an element of that name."""
        while self.current.is_html(names) and self.current.name != but:
            self.stack.pop()
