"""Where Chromium 156 departs from the HTML Standard's tree construction (13.2.6), as far as tools/random_pages shows
it: each departure is a change of the rules of tools/literal_reading.py. It is a module, not a command.
"""

from dataclasses import dataclass, replace
from functools import cache

from literal_reading import ADJUSTED, LiteralReading
from literal_tree import HTML, SVG, Kind, Token

REPLACEMENT_CHARACTER = "\ufffd"


class FormInTemplate(LiteralReading):
    """Keeps a `form` in a table of a `template`."""

    def start_in_table(self, token: Token) -> None:
        """A start tag in the "in table" insertion mode."""
        if token.is_start("form") and self.has_open("template"):
            self.insert_void_element(token)
        else:
            super().start_in_table(token)


class SpaceInTemplate(LiteralReading):
    """Reads white space right in a `template`, in the modes of tables, as in a body."""

    def in_table(self, token: Token) -> None:
        """The "in table" insertion mode."""
        if token.kind is Kind.CHARACTER and self.current.is_html("template"):
            self.anything_else_in_table(token)
        else:
            super().in_table(token)


class EndOfFormInTemplate(LiteralReading):
    """Reads `</form>` in a `template` as any other end tag."""

    def end_form(self, token: Token) -> None:
        """An end tag of `form` "in body"."""
        if self.has_open("template"):
            self.any_other_end_tag(token)
        else:
            super().end_form(token)


class BaseInTemplate(LiteralReading):
    """Sets the template insertion mode for some content of the head."""

    def in_template(self, token: Token) -> None:
        """The "in template" insertion mode."""
        if token.is_start("base basefont bgsound noframes title"):
            self.change_template_mode(token, self.in_body)
        else:
            super().in_template(token)


class HeadInNoscript(LiteralReading):
    """Ends a `noscript` of the head at a `<head>`."""

    def in_head_noscript(self, token: Token) -> None:
        """The "in head noscript" insertion mode."""
        if token.is_start("head"):
            self.stack.pop()
            self.mode = self.in_head
            self.process(token)
        else:
            super().in_head_noscript(token)


class ReplacementCharacter(LiteralReading):
    """Leaves the frameset-ok flag at U+FFFD."""

    def character_in_body(self, token: Token) -> None:
        """A character in the "in body" insertion mode."""
        frameset_ok = self.frameset_ok
        super().character_in_body(token)
        if token.name == REPLACEMENT_CHARACTER:
            self.frameset_ok = frameset_ok

    def character_in_foreign_content(self, token: Token) -> None:
        """A character in foreign content."""
        frameset_ok = self.frameset_ok
        super().character_in_foreign_content(token)
        if token.name == REPLACEMENT_CHARACTER:
            self.frameset_ok = frameset_ok


class SpaceAfterBody(LiteralReading):
    """Inserts white space behind the body without more."""

    def after_body(self, token: Token) -> None:
        """The "after body" insertion mode."""
        if token.is_space():
            self.insert_character(token)
        else:
            super().after_body(token)

    def after_after_body(self, token: Token) -> None:
        """The "after after body" insertion mode."""
        if token.is_space():
            self.insert_character(token)
        else:
            super().after_after_body(token)


class EndTagNames(LiteralReading):
    """Adjusts the names of end tags in SVG, and compares them with their capitals."""

    def end_in_foreign_content(self, token: Token) -> None:
        """An end tag in foreign content."""
        if self.current.namespace == SVG:
            token = replace(token, name=ADJUSTED.get(token.name, token.name))
        for node in reversed(self.stack):
            if node.namespace == HTML:
                self.mode(token)
                return
            if node.name == token.name:
                self.pop_until(node)
                return


@dataclass(frozen=True)
class Departure:
    """A departure of Chromium from the standard: the section of the rule, what the two do, and the change."""

    name: str
    section: str
    sentence: str
    change: type[LiteralReading]


DEPARTURES = (
    Departure("form in a template's table", "13.2.6.4.9",
              "the standard ignores a <form> in a table of a template, Chromium keeps it", FormInTemplate),
    Departure("U+FFFD bars no frameset", "13.2.6.4.7, 13.2.6.5",
              "the standard sets the frameset-ok flag to \"not ok\" at U+FFFD, as at other characters, Chromium leaves "
              "it as it is", ReplacementCharacter),
    Departure("base sets a template's mode", "13.2.6.4.18",
              "the standard leaves the template insertion mode as it is at base, basefont, bgsound, noframes and "
              "title, Chromium sets it to \"in body\"", BaseInTemplate),
    Departure("head in noscript", "13.2.6.4.5",
              "the standard ignores a <head> in a noscript of the head, Chromium ends the noscript", HeadInNoscript),
    Departure("white space in a template's table", "13.2.6.4.9, 13.2.6.4.10",
              "the standard inserts white space right in a template as it is in the modes of tables, Chromium first "
              "reconstructs the active formatting elements", SpaceInTemplate),
    Departure("end of a form in a template", "13.2.6.4.7",
              "the standard closes what is open in a form at </form> in a template, Chromium ignores this end tag if a "
              "special element is open in the form", EndOfFormInTemplate),
    Departure("white space after body", "13.2.6.4.19, 13.2.6.4.22",
              "the standard reconstructs the active formatting elements for white space behind </body> or </html>, "
              "Chromium does not", SpaceAfterBody),
    Departure("capitals in end tags", "13.2.6.5",
              "the standard compares the names of end tags in foreign content in small letters, Chromium adjusts them "
              "in SVG to names with capitals, such as foreignObject, which no HTML element has", EndTagNames),
)


@cache
def reading_with(departures: tuple[Departure, ...]) -> type[LiteralReading]:
    """Returns the literal reading with departures."""
    return type("Departing", (*(departure.change for departure in departures), LiteralReading), {})
