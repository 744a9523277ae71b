"""The "in body" insertion mode (HTML Standard 13.2.6.4.7) of tools/literal_reading.py: a method for each of its rules,
in the standard's words. It is a module, not a command.
"""

from dataclasses import replace
from typing import Callable

from literal_tree import MATHML, SVG, Construction, Element, Kind, Mark, Mode, State, Token, start_tag

HEADINGS = "h1 h2 h3 h4 h5 h6"
# start tags for which other modes use the rules for "in head"
HEAD_CONTENT = "base basefont bgsound link meta noframes script style template title"

# The names of the methods for start tags and end tags, by the name of the tag.
START_RULES: dict[str, str] = {}
END_RULES: dict[str, str] = {}


def rule(table: dict[str, str], names: str) -> Callable[[Callable], Callable]:
    """Enters a method in a table, for tags with these names."""

    def enter(method: Callable) -> Callable:
        table.update(dict.fromkeys(names.split(), method.__name__))
        return method

    return enter


class InBody(Construction):
    """The "in body" insertion mode."""

    # what LiteralReading has
    process: Mode
    stop_parsing: Callable[[], None]
    in_head: Mode
    text: Mode
    in_table: Mode
    in_template: Mode
    after_body: Mode
    in_frameset: Mode

    def in_body(self, token: Token) -> None:
        """The "in body" insertion mode (13.2.6.4.7)."""
        if token.kind is Kind.CHARACTER:
            self.character_in_body(token)
        elif token.kind is Kind.COMMENT:
            self.insert_comment()
        elif token.kind is Kind.START_TAG:
            getattr(self, START_RULES.get(token.name, "any_other_start_tag"))(token)
        elif token.kind is Kind.END_TAG:
            getattr(self, END_RULES.get(token.name, "any_other_end_tag"))(token)
        elif token.kind is Kind.END_OF_FILE:
            if self.template_modes:
                self.in_template(token)
            else:
                self.stop_parsing()

    def character_in_body(self, token: Token) -> None:
        """A character in the "in body" insertion mode; none is U+0000 (13.2.6.4.7)."""
        self.reconstruct_formatting()
        self.insert_character(token)
        if not token.is_space():
            self.frameset_ok = False

    @rule(START_RULES, "html")
    def start_html(self, token: Token) -> None:
        """A start tag of `html` "in body" (13.2.6.4.7)."""
        if not self.has_open("template"):
            self.stack[0].add_attributes(token)

    @rule(START_RULES, HEAD_CONTENT)
    @rule(END_RULES, "template")
    def as_in_head(self, token: Token) -> None:
        """A tag "in body" for which the rules are those for "in head" (13.2.6.4.7)."""
        self.in_head(token)

    def has_body_second(self) -> bool:
        """Returns whether the second element on the stack of open elements is a `body`."""
        return len(self.stack) > 1 and self.stack[1].is_html("body")

    @rule(START_RULES, "body")
    def start_body(self, token: Token) -> None:
        """A start tag of `body` "in body" (13.2.6.4.7)."""
        if self.has_body_second() and not self.has_open("template"):
            self.frameset_ok = False
            self.stack[1].add_attributes(token)

    @rule(START_RULES, "frameset")
    def start_frameset(self, token: Token) -> None:
        """A start tag of `frameset` "in body" (13.2.6.4.7)."""
        if self.has_body_second() and self.frameset_ok:
            self.stack[1].remove()
            del self.stack[1:]
            self.insert_element(token)
            self.mode = self.in_frameset

    @rule(END_RULES, "body")
    def end_body(self, token: Token) -> None:
        """An end tag of `body` "in body" (13.2.6.4.7)."""
        if self.has_in_scope("body"):
            self.mode = self.after_body

    @rule(END_RULES, "html")
    def end_html(self, token: Token) -> None:
        """An end tag of `html` "in body" (13.2.6.4.7)."""
        if self.has_in_scope("body"):
            self.mode = self.after_body
            self.process(token)

    def close_p(self) -> None:
        """If the stack has a `p` in button scope, closes a `p` element (13.2.6.4.7)."""
        if self.has_in_button_scope("p"):
            self.generate_implied_end_tags(but="p")
            self.pop_until("p")

    @rule(START_RULES, """address article aside blockquote center details dialog dir div dl fieldset figcaption figure
        footer header hgroup main menu nav ol p search section summary ul""")
    def start_block(self, token: Token) -> None:
        """A start tag of `address` and others "in body" (13.2.6.4.7)."""
        self.close_p()
        self.insert_element(token)

    @rule(START_RULES, HEADINGS)
    def start_heading(self, token: Token) -> None:
        """A start tag of `h1` and others "in body" (13.2.6.4.7)."""
        self.close_p()
        if self.current.is_html(HEADINGS):
            self.stack.pop()
        self.insert_element(token)

    @rule(START_RULES, "pre listing")
    def start_pre(self, token: Token) -> None:
        """A start tag of `pre` or `listing` "in body" (13.2.6.4.7)."""
        self.close_p()
        self.insert_element(token)
        self.ignores_line_feed = True
        self.frameset_ok = False

    @rule(START_RULES, "form")
    def start_form(self, token: Token) -> None:
        """A start tag of `form` "in body" (13.2.6.4.7)."""
        if self.form and not self.has_open("template"):
            return
        self.close_p()
        element = self.insert_element(token)
        if not self.has_open("template"):
            self.form = element

    @rule(START_RULES, "li dd dt")
    def start_item(self, token: Token) -> None:
        """A start tag of `li`, `dd` or `dt` "in body" (13.2.6.4.7)."""
        self.frameset_ok = False
        for node in reversed(self.stack):
            if node.is_html("li" if token.name == "li" else "dd dt"):
                self.generate_implied_end_tags(but=node.name)
                self.pop_until(node.name)
                break
            if node.is_special() and not node.is_html("address div p"):
                break
        self.close_p()
        self.insert_element(token)

    @rule(START_RULES, "plaintext")
    def start_plaintext(self, token: Token) -> None:
        """A start tag of `plaintext` "in body" (13.2.6.4.7)."""
        self.close_p()
        self.insert_element(token)
        self.tokenizer.state = State.PLAINTEXT

    @rule(START_RULES, "button")
    def start_button(self, token: Token) -> None:
        """A start tag of `button` "in body" (13.2.6.4.7)."""
        if self.has_in_scope("button"):
            self.generate_implied_end_tags()
            self.pop_until("button")
        self.reconstruct_formatting()
        self.insert_element(token)
        self.frameset_ok = False

    @rule(END_RULES, """address article aside blockquote button center details dialog dir div dl fieldset figcaption
        figure footer header hgroup listing main menu nav ol pre search section select summary ul""")
    def end_block(self, token: Token) -> None:
        """An end tag of `address` and others "in body" (13.2.6.4.7)."""
        if self.has_in_scope(token.name):
            self.generate_implied_end_tags()
            self.pop_until(token.name)

    @rule(END_RULES, "form")
    def end_form(self, token: Token) -> None:
        """An end tag of `form` "in body" (13.2.6.4.7)."""
        if not self.has_open("template"):
            node, self.form = self.form, None
            if node and self.has_in_scope(node):
                self.generate_implied_end_tags()
                self.stack.remove(node)
        elif self.has_in_scope("form"):
            self.generate_implied_end_tags()
            self.pop_until("form")

    @rule(END_RULES, "p")
    def end_p(self, token: Token) -> None:
        """An end tag of `p` "in body" (13.2.6.4.7)."""
        if not self.has_in_button_scope("p"):
            self.insert_element(start_tag("p"))
        self.close_p()

    @rule(END_RULES, "li")
    def end_li(self, token: Token) -> None:
        """An end tag of `li` "in body" (13.2.6.4.7)."""
        if self.has_in_list_item_scope("li"):
            self.generate_implied_end_tags(but="li")
            self.pop_until("li")

    @rule(END_RULES, "dd dt")
    def end_dd(self, token: Token) -> None:
        """An end tag of `dd` or `dt` "in body" (13.2.6.4.7)."""
        if self.has_in_scope(token.name):
            self.generate_implied_end_tags(but=token.name)
            self.pop_until(token.name)

    @rule(END_RULES, HEADINGS)
    def end_heading(self, token: Token) -> None:
        """An end tag of `h1` and others "in body" (13.2.6.4.7)."""
        if self.has_in_scope(HEADINGS):
            self.generate_implied_end_tags()
            self.pop_until(HEADINGS)

    @rule(START_RULES, "a")
    def start_a(self, token: Token) -> None:
        """A start tag of `a` "in body" (13.2.6.4.7)."""
        if element := self.last_formatting("a"):
            self.adoption_agency(token)
            self.remove_from_formatting(element)
            self.remove_from_stack(element)
        self.reconstruct_formatting()
        self.push_formatting(self.insert_element(token))

    @rule(START_RULES, "b big code em font i s small strike strong tt u")
    def start_formatting(self, token: Token) -> None:
        """A start tag of `b` and others "in body" (13.2.6.4.7)."""
        self.reconstruct_formatting()
        self.push_formatting(self.insert_element(token))

    @rule(START_RULES, "nobr")
    def start_nobr(self, token: Token) -> None:
        """A start tag of `nobr` "in body" (13.2.6.4.7)."""
        self.reconstruct_formatting()
        if self.has_in_scope("nobr"):
            self.adoption_agency(token)
            self.reconstruct_formatting()
        self.push_formatting(self.insert_element(token))

    @rule(END_RULES, "a b big code em font i nobr s small strike strong tt u")
    def adoption_agency(self, token: Token) -> None:
        """Runs the adoption agency algorithm, as the end tag of a formatting element "in body" does (13.2.6.4.7)."""
        subject = token.name
        if self.current.is_html(subject) and self.current not in self.formatting:
            self.stack.pop()
            return
        for _ in range(8):
            formatting_element = self.last_formatting(subject)
            if formatting_element is None:
                self.any_other_end_tag(token)
                return
            if formatting_element not in self.stack:
                self.formatting.remove(formatting_element)
                return
            if not self.has_in_scope(formatting_element):
                return
            below = self.stack[self.stack.index(formatting_element) + 1 :]
            furthest_block = next((element for element in below if element.is_special()), None)
            if furthest_block is None:
                self.pop_until(formatting_element)
                self.formatting.remove(formatting_element)
                return
            self.adopt(formatting_element, furthest_block)

    def adopt(self, formatting_element: Element, furthest_block: Element) -> None:
        """Does the rest of a turn of the adoption agency algorithm's outer loop (13.2.6.4.7)."""
        common_ancestor = self.stack[self.stack.index(formatting_element) - 1]
        self.formatting.insert(self.formatting.index(formatting_element), Mark.BOOKMARK)
        last_node = self.adopt_between(formatting_element, furthest_block)
        place = self.appropriate_place(common_ancestor)
        place.parent.insert(last_node, place.before)
        new_element = self.create_element(formatting_element.token)
        for child in list(furthest_block.children):
            new_element.append(child)
        furthest_block.append(new_element)
        self.formatting.remove(formatting_element)
        self.formatting[self.formatting.index(Mark.BOOKMARK)] = new_element
        self.stack.remove(formatting_element)
        self.stack.insert(self.stack.index(furthest_block) + 1, new_element)

    def adopt_between(self, formatting_element: Element, furthest_block: Element) -> Element:
        """Runs the adoption agency algorithm's inner loop, and returns the last node (13.2.6.4.7)."""
        last_node = furthest_block
        above = self.stack.index(furthest_block)
        inner_loop_counter = 0
        while True:
            inner_loop_counter += 1
            above -= 1
            node = self.stack[above]
            if node is formatting_element:
                return last_node
            if inner_loop_counter > 3:
                self.remove_from_formatting(node)
            if node not in self.formatting:
                self.stack.remove(node)
                continue
            new_element = self.create_element(node.token)
            self.formatting[self.formatting.index(node)] = new_element
            self.stack[above] = new_element
            if last_node is furthest_block:
                self.formatting.remove(Mark.BOOKMARK)
                self.formatting.insert(self.formatting.index(new_element) + 1, Mark.BOOKMARK)
            new_element.append(last_node)
            last_node = new_element

    @rule(START_RULES, "applet marquee object")
    def start_object(self, token: Token) -> None:
        """A start tag of `applet`, `marquee` or `object` "in body" (13.2.6.4.7)."""
        self.reconstruct_formatting()
        self.insert_element(token)
        self.insert_marker()
        self.frameset_ok = False

    @rule(END_RULES, "applet marquee object")
    def end_object(self, token: Token) -> None:
        """An end tag of `applet`, `marquee` or `object` "in body" (13.2.6.4.7)."""
        if self.has_in_scope(token.name):
            self.generate_implied_end_tags()
            self.pop_until(token.name)
            self.clear_formatting()

    @rule(START_RULES, "table")
    def start_table(self, token: Token) -> None:
        """A start tag of `table` "in body" (13.2.6.4.7)."""
        if not self.quirks_mode:
            self.close_p()
        self.insert_element(token)
        self.frameset_ok = False
        self.mode = self.in_table

    @rule(START_RULES, "area br embed img keygen wbr")
    def start_void(self, token: Token) -> None:
        """A start tag of `area` and others "in body" (13.2.6.4.7)."""
        self.reconstruct_formatting()
        self.insert_void_element(token)
        self.frameset_ok = False

    @rule(END_RULES, "br")
    def end_br(self, token: Token) -> None:
        """An end tag of `br` "in body", which is read as a start tag (13.2.6.4.7)."""
        self.start_void(start_tag("br"))

    @rule(START_RULES, "input")
    def start_input(self, token: Token) -> None:
        """A start tag of `input` "in body" (13.2.6.4.7)."""
        if self.has_in_scope("select"):
            self.pop_until("select")
        self.reconstruct_formatting()
        self.insert_void_element(token)
        if token.attributes.get("type", "").lower() != "hidden":
            self.frameset_ok = False

    @rule(START_RULES, "param source track")
    def start_param(self, token: Token) -> None:
        """A start tag of `param`, `source` or `track` "in body" (13.2.6.4.7)."""
        self.insert_void_element(token)

    @rule(START_RULES, "hr")
    def start_hr(self, token: Token) -> None:
        """A start tag of `hr` "in body" (13.2.6.4.7)."""
        self.close_p()
        if self.has_in_scope("select"):
            self.generate_implied_end_tags()
        self.insert_void_element(token)
        self.frameset_ok = False

    @rule(START_RULES, "image")
    def start_image(self, token: Token) -> None:
        """A start tag of `image` "in body" (13.2.6.4.7)."""
        self.process(replace(token, name="img"))

    @rule(START_RULES, "textarea")
    def start_textarea(self, token: Token) -> None:
        """A start tag of `textarea` "in body" (13.2.6.4.7)."""
        self.ignores_line_feed = True
        self.frameset_ok = False
        self.parse_text(token, State.RCDATA, self.text)

    @rule(START_RULES, "xmp")
    def start_xmp(self, token: Token) -> None:
        """A start tag of `xmp` "in body" (13.2.6.4.7)."""
        self.close_p()
        self.reconstruct_formatting()
        self.frameset_ok = False
        self.parse_text(token, State.RAWTEXT, self.text)

    @rule(START_RULES, "iframe")
    def start_iframe(self, token: Token) -> None:
        """A start tag of `iframe` "in body" (13.2.6.4.7)."""
        self.frameset_ok = False
        self.parse_text(token, State.RAWTEXT, self.text)

    @rule(START_RULES, "noembed")
    def start_noembed(self, token: Token) -> None:
        """A start tag of `noembed` "in body" (13.2.6.4.7)."""
        self.parse_text(token, State.RAWTEXT, self.text)

    @rule(START_RULES, "select")
    def start_select(self, token: Token) -> None:
        """A start tag of `select` "in body" (13.2.6.4.7)."""
        if self.has_in_scope("select"):
            self.pop_until("select")
            return
        self.reconstruct_formatting()
        self.insert_element(token)
        self.frameset_ok = False

    @rule(START_RULES, "option")
    def start_option(self, token: Token) -> None:
        """A start tag of `option` "in body" (13.2.6.4.7)."""
        if self.has_in_scope("select"):
            self.generate_implied_end_tags(but="optgroup")
        elif self.current.is_html("option"):
            self.stack.pop()
        self.reconstruct_formatting()
        self.insert_element(token)

    @rule(START_RULES, "optgroup")
    def start_optgroup(self, token: Token) -> None:
        """A start tag of `optgroup` "in body" (13.2.6.4.7)."""
        if self.has_in_scope("select"):
            self.generate_implied_end_tags()
        elif self.current.is_html("option"):
            self.stack.pop()
        self.reconstruct_formatting()
        self.insert_element(token)

    @rule(START_RULES, "rb rtc")
    def start_rb(self, token: Token) -> None:
        """A start tag of `rb` or `rtc` "in body" (13.2.6.4.7)."""
        if self.has_in_scope("ruby"):
            self.generate_implied_end_tags()
        self.insert_element(token)

    @rule(START_RULES, "rp rt")
    def start_rp(self, token: Token) -> None:
        """A start tag of `rp` or `rt` "in body" (13.2.6.4.7)."""
        if self.has_in_scope("ruby"):
            self.generate_implied_end_tags(but="rtc")
        self.insert_element(token)

    @rule(START_RULES, "math svg")
    def start_foreign(self, token: Token) -> None:
        """A start tag of `math` or `svg` "in body" (13.2.6.4.7)."""
        self.reconstruct_formatting()
        self.insert_element(token, MATHML if token.name == "math" else SVG)
        if token.self_closing:
            self.stack.pop()

    @rule(START_RULES, "caption col colgroup frame head tbody td tfoot th thead tr")
    def ignore(self, token: Token) -> None:
        """A start tag that is ignored "in body" (13.2.6.4.7)."""

    def any_other_start_tag(self, token: Token) -> None:
        """Any other start tag "in body" (13.2.6.4.7)."""
        self.reconstruct_formatting()
        self.insert_element(token)

    def any_other_end_tag(self, token: Token) -> None:
        """Any other end tag "in body" (13.2.6.4.7)."""
        for node in reversed(self.stack):
            if node.is_html(token.name):
                self.generate_implied_end_tags(but=token.name)
                self.pop_until(node)
                return
            if node.is_special():
                return
