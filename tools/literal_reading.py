"""A literal reading of tree construction (HTML Standard 13.2.6), for the pages of tools/random_pages: each insertion
mode is a method, with the standard's rules in its words, and changes the tree step by step, one character at a time.
It shares no idea with the definitions of `crates/html_page_tree`, which is its worth: whoever changes it should look
at the standard alone. It was not compared with the standard's text word by word. tools/literal_body.py has the rules for a
body, tools/literal_tree.py what all modes share. It is a module, not a command.
"""

from dataclasses import replace

from literal_body import HEAD_CONTENT, InBody
from literal_tree import (HTML, MATHML, SVG, THOROUGHLY_IMPLIED, Comment, Element, Kind, Mode, State, Text, Token,
                          start_tag)

TABLE_PARTS = "caption col colgroup tbody td tfoot th thead tr"
# start tags that end foreign content (13.2.6.5)
BREAKOUT = """b big blockquote body br center code dd div dl dt em embed h1 h2 h3 h4 h5 h6 head hr i img li listing menu
    meta nobr ol p pre ruby s small span strong strike sub sup table tt u ul var"""
# the names of SVG elements with capitals (13.2.6.5)
SVG_NAMES = """altGlyph altGlyphDef altGlyphItem animateColor animateMotion animateTransform clipPath feBlend
    feColorMatrix feComponentTransfer feComposite feConvolveMatrix feDiffuseLighting feDisplacementMap
    feDistantLight feDropShadow feFlood feFuncA feFuncB feFuncG feFuncR feGaussianBlur feImage feMerge feMergeNode
    feMorphology feOffset fePointLight feSpecularLighting feSpotLight feTile feTurbulence foreignObject glyphRef
    linearGradient radialGradient textPath"""
ADJUSTED = {name.lower(): name for name in SVG_NAMES.split()}


class LiteralReading(InBody):
    """Reads a page, with the insertion mode as a variable."""

    def __init__(self, page: str) -> None:
        super().__init__(page)
        self.mode = self.initial

    def read(self) -> Element:
        """Reads the page, and returns its document element."""
        while not self.is_stopped:
            token = self.tokenizer.next_token()
            ignores, self.ignores_line_feed = self.ignores_line_feed, False
            if not (ignores and token.kind is Kind.CHARACTER and token.name == "\n"):
                self.process(token)
        return next(node for node in self.document.children if isinstance(node, Element))

    def process(self, token: Token) -> None:
        """Processes a token, maybe again: the tree construction dispatcher (13.2.6)."""
        if self.is_read_as_html(token):
            self.mode(token)
        else:
            self.in_foreign_content(token)

    def is_read_as_html(self, token: Token) -> bool:
        """Returns whether the dispatcher takes the rules of the insertion mode in HTML content (13.2.6)."""
        if not self.stack or self.current.namespace == HTML or token.kind is Kind.END_OF_FILE:
            return True
        is_start, is_character = token.kind is Kind.START_TAG, token.kind is Kind.CHARACTER
        if self.current.is_mathml_text_integration_point():
            if is_start and token.name not in ("mglyph", "malignmark") or is_character:
                return True
        if self.current.namespace == MATHML and self.current.name == "annotation-xml" and token.is_start("svg"):
            return True
        return self.current.is_html_integration_point() and (is_start or is_character)

    def reset_insertion_mode(self) -> None:
        """Resets the insertion mode appropriately (13.2.4.1)."""
        modes = {"td": self.in_cell, "th": self.in_cell, "tr": self.in_row, "tbody": self.in_table_body,
                 "thead": self.in_table_body, "tfoot": self.in_table_body, "caption": self.in_caption,
                 "colgroup": self.in_column_group, "table": self.in_table, "head": self.in_head,
                 "body": self.in_body, "frameset": self.in_frameset}
        for node in reversed(self.stack):
            if node.is_html("template"):
                self.mode = self.template_modes[-1]
                return
            if node.is_html("html"):
                self.mode = self.after_head if self.head else self.before_head
                return
            if node.namespace == HTML and node.name in modes:
                self.mode = modes[node.name]
                return

    def stop_parsing(self) -> None:
        """Stops parsing (13.2.7)."""
        self.is_stopped = True

    def initial(self, token: Token) -> None:
        """The "initial" insertion mode (13.2.6.4.1)."""
        if token.is_space():
            return
        if token.kind is Kind.COMMENT:
            self.insert_comment(self.document)
        elif token.kind is Kind.DOCTYPE:
            self.mode = self.before_html
        else:
            self.quirks_mode = True
            self.mode = self.before_html
            self.process(token)

    def before_html(self, token: Token) -> None:
        """The "before html" insertion mode (13.2.6.4.2)."""
        if token.kind is Kind.DOCTYPE or token.is_space():
            return
        if token.kind is Kind.COMMENT:
            self.insert_comment(self.document)
            return
        if token.kind is Kind.END_TAG and not token.is_end("head body html br"):
            return
        is_html = token.is_start("html")
        element = self.create_element(token if is_html else start_tag("html"))
        self.document.append(element)
        self.stack.append(element)
        self.mode = self.before_head
        if not is_html:
            self.process(token)

    def before_head(self, token: Token) -> None:
        """The "before head" insertion mode (13.2.6.4.3)."""
        if token.is_space() or token.kind is Kind.DOCTYPE:
            return
        if token.kind is Kind.COMMENT:
            self.insert_comment()
        elif token.is_start("html"):
            self.in_body(token)
        elif token.is_start("head"):
            self.head = self.insert_element(token)
            self.mode = self.in_head
        elif token.kind is not Kind.END_TAG or token.is_end("head body html br"):
            self.head = self.insert_element(start_tag("head"))
            self.mode = self.in_head
            self.process(token)

    def in_head(self, token: Token) -> None:
        """The "in head" insertion mode (13.2.6.4.4)."""
        if token.is_space():
            self.insert_character(token)
        elif token.kind is Kind.COMMENT:
            self.insert_comment()
        elif token.kind is Kind.DOCTYPE:
            return
        elif token.is_start("html"):
            self.in_body(token)
        elif token.is_start("base basefont bgsound link meta"):
            self.insert_void_element(token)
        elif token.is_start("title"):
            self.parse_text(token, State.RCDATA, self.text)
        elif token.is_start("noframes style"):
            self.parse_text(token, State.RAWTEXT, self.text)
        elif token.is_start("noscript"):
            self.insert_element(token)
            self.mode = self.in_head_noscript
        elif token.is_start("script"):
            self.parse_text(token, State.SCRIPT_DATA, self.text)
        elif token.is_end("head"):
            self.stack.pop()
            self.mode = self.after_head
        elif token.is_start("template"):
            self.start_template(token)
        elif token.is_end("template"):
            self.end_template()
        elif token.is_start("head") or token.kind is Kind.END_TAG and not token.is_end("body html br"):
            return
        else:
            self.stack.pop()
            self.mode = self.after_head
            self.process(token)

    def start_template(self, token: Token) -> None:
        """A start tag of a `template` in the "in head" insertion mode (13.2.6.4.4)."""
        self.insert_marker()
        self.frameset_ok = False
        self.mode = self.in_template
        self.template_modes.append(self.in_template)
        self.insert_element(token)

    def end_template(self) -> None:
        """An end tag of a `template` in the "in head" insertion mode (13.2.6.4.4)."""
        if self.has_open("template"):
            self.generate_implied_end_tags(names=THOROUGHLY_IMPLIED)
            self.leave_template()

    def leave_template(self) -> None:
        """Pops elements until a `template` has been popped, and resets what belongs to it (13.2.6.4.4, 13.2.6.4.18)."""
        self.pop_until("template")
        self.clear_formatting()
        self.template_modes.pop()
        self.reset_insertion_mode()

    def in_head_noscript(self, token: Token) -> None:
        """The "in head noscript" insertion mode (13.2.6.4.5)."""
        if token.kind is Kind.DOCTYPE:
            return
        if token.is_start("html"):
            self.in_body(token)
        elif token.is_end("noscript"):
            self.stack.pop()
            self.mode = self.in_head
        elif token.is_space() or token.kind is Kind.COMMENT:
            self.in_head(token)
        elif token.is_start("basefont bgsound link meta noframes style"):
            self.in_head(token)
        elif token.is_start("head noscript") or token.kind is Kind.END_TAG and not token.is_end("br"):
            return
        else:
            self.stack.pop()
            self.mode = self.in_head
            self.process(token)

    def after_head(self, token: Token) -> None:
        """The "after head" insertion mode (13.2.6.4.6)."""
        if token.is_space():
            self.insert_character(token)
        elif token.kind is Kind.COMMENT:
            self.insert_comment()
        elif token.kind is Kind.DOCTYPE:
            return
        elif token.is_start("html"):
            self.in_body(token)
        elif token.is_start("body"):
            self.insert_element(token)
            self.frameset_ok = False
            self.mode = self.in_body
        elif token.is_start("frameset"):
            self.insert_element(token)
            self.mode = self.in_frameset
        elif token.is_start(HEAD_CONTENT):
            assert self.head
            self.stack.append(self.head)
            self.in_head(token)
            self.remove_from_stack(self.head)
        elif token.is_end("template"):
            self.in_head(token)
        elif token.is_start("head") or token.kind is Kind.END_TAG and not token.is_end("body html br"):
            return
        else:
            self.insert_element(start_tag("body"))
            self.mode = self.in_body
            self.process(token)

    def text(self, token: Token) -> None:
        """The "text" insertion mode (13.2.6.4.8)."""
        if token.kind is Kind.CHARACTER:
            self.insert_character(token)
            return
        self.stack.pop()
        self.mode = self.original_mode
        if token.kind is Kind.END_OF_FILE:
            self.process(token)

    def in_table(self, token: Token) -> None:
        """The "in table" insertion mode (13.2.6.4.9)."""
        if token.kind is Kind.CHARACTER and self.current.is_html("table tbody template tfoot thead tr"):
            self.pending_characters = []
            self.original_mode = self.mode
            self.mode = self.in_table_text
            self.process(token)
        elif token.kind is Kind.COMMENT:
            self.insert_comment()
        elif token.kind is Kind.DOCTYPE:
            return
        elif token.kind is Kind.START_TAG:
            self.start_in_table(token)
        elif token.is_end("table"):
            if self.has_in_table_scope("table"):
                self.pop_until("table")
                self.reset_insertion_mode()
        elif token.is_end("body caption col colgroup html tbody td tfoot th thead tr"):
            return
        elif token.is_end("template"):
            self.in_head(token)
        elif token.kind is Kind.END_OF_FILE:
            self.in_body(token)
        else:
            self.anything_else_in_table(token)

    def start_in_table(self, token: Token) -> None:
        """A start tag in the "in table" insertion mode (13.2.6.4.9)."""
        if token.is_start("caption colgroup tbody tfoot thead col td th tr"):
            self.start_part_in_table(token)
        elif token.is_start("table"):
            if self.has_in_table_scope("table"):
                self.pop_until("table")
                self.reset_insertion_mode()
                self.process(token)
        elif token.is_start("style script template"):
            self.in_head(token)
        elif token.is_start("input") and token.attributes.get("type", "").lower() == "hidden":
            self.insert_void_element(token)
        elif token.is_start("form"):
            if not self.has_open("template") and self.form is None:
                self.form = self.insert_element(token)
                self.stack.pop()
        else:
            self.anything_else_in_table(token)

    def start_part_in_table(self, token: Token) -> None:
        """A start tag of a part of a table in the "in table" insertion mode (13.2.6.4.9)."""
        self.clear_stack_back_to("table")
        if token.is_start("caption"):
            self.insert_marker()
            self.insert_element(token)
            self.mode = self.in_caption
        elif token.is_start("colgroup"):
            self.insert_element(token)
            self.mode = self.in_column_group
        elif token.is_start("col"):
            self.insert_element(start_tag("colgroup"))
            self.mode = self.in_column_group
            self.process(token)
        elif token.is_start("tbody tfoot thead"):
            self.insert_element(token)
            self.mode = self.in_table_body
        else:
            self.insert_element(start_tag("tbody"))
            self.mode = self.in_table_body
            self.process(token)

    def clear_stack_back_to(self, names: str) -> None:
        """Clears the stack back to a table context, a table body context or a table row context: to an element with one
        of these names, a `template` or `html` (13.2.6.4.9, 13.2.6.4.13, 13.2.6.4.14)."""
        while not self.current.is_html(names) and not self.current.is_html("template html"):
            self.stack.pop()

    def anything_else_in_table(self, token: Token) -> None:
        """Anything else in the "in table" insertion mode (13.2.6.4.9)."""
        self.foster_parenting = True
        self.in_body(token)
        self.foster_parenting = False

    def in_table_text(self, token: Token) -> None:
        """The "in table text" insertion mode; no character is U+0000 (13.2.6.4.10)."""
        if token.kind is Kind.CHARACTER:
            self.pending_characters.append(token)
            return
        if all(character.is_space() for character in self.pending_characters):
            for character in self.pending_characters:
                self.insert_character(character)
        else:
            for character in self.pending_characters:
                self.anything_else_in_table(character)
        self.mode = self.original_mode
        self.process(token)

    def in_caption(self, token: Token) -> None:
        """The "in caption" insertion mode (13.2.6.4.11)."""
        if token.is_end("caption table") or token.is_start(TABLE_PARTS):
            if not self.has_in_table_scope("caption"):
                return
            self.generate_implied_end_tags()
            self.pop_until("caption")
            self.clear_formatting()
            self.mode = self.in_table
            if not token.is_end("caption"):
                self.process(token)
        elif not token.is_end("body col colgroup html tbody td tfoot th thead tr"):
            self.in_body(token)

    def in_column_group(self, token: Token) -> None:
        """The "in column group" insertion mode (13.2.6.4.12)."""
        if token.is_space():
            self.insert_character(token)
        elif token.kind is Kind.COMMENT:
            self.insert_comment()
        elif token.kind is Kind.DOCTYPE:
            return
        elif token.is_start("html"):
            self.in_body(token)
        elif token.is_start("col"):
            self.insert_void_element(token)
        elif token.is_end("colgroup"):
            if self.current.is_html("colgroup"):
                self.stack.pop()
                self.mode = self.in_table
        elif token.is_end("col"):
            return
        elif token.is_start("template") or token.is_end("template"):
            self.in_head(token)
        elif token.kind is Kind.END_OF_FILE:
            self.in_body(token)
        elif self.current.is_html("colgroup"):
            self.stack.pop()
            self.mode = self.in_table
            self.process(token)

    def in_table_body(self, token: Token) -> None:
        """The "in table body" insertion mode (13.2.6.4.13)."""
        if token.is_start("tr"):
            self.clear_stack_back_to("tbody tfoot thead")
            self.insert_element(token)
            self.mode = self.in_row
        elif token.is_start("th td"):
            self.clear_stack_back_to("tbody tfoot thead")
            self.insert_element(start_tag("tr"))
            self.mode = self.in_row
            self.process(token)
        elif token.is_end("tbody tfoot thead"):
            if self.has_in_table_scope(token.name):
                self.close_table_body()
        elif token.is_start("caption col colgroup tbody tfoot thead") or token.is_end("table"):
            if self.has_in_table_scope("tbody thead tfoot"):
                self.close_table_body()
                self.process(token)
        elif not token.is_end("body caption col colgroup html td th tr"):
            self.in_table(token)

    def close_table_body(self) -> None:
        """Ends a table body (13.2.6.4.13)."""
        self.clear_stack_back_to("tbody tfoot thead")
        self.stack.pop()
        self.mode = self.in_table

    def in_row(self, token: Token) -> None:
        """The "in row" insertion mode (13.2.6.4.14)."""
        if token.is_start("th td"):
            self.clear_stack_back_to("tr")
            self.insert_element(token)
            self.mode = self.in_cell
            self.insert_marker()
        elif token.is_end("tr"):
            if self.has_in_table_scope("tr"):
                self.close_row()
        elif token.is_start("caption col colgroup tbody tfoot thead tr") or token.is_end("table"):
            if self.has_in_table_scope("tr"):
                self.close_row()
                self.process(token)
        elif token.is_end("tbody tfoot thead"):
            if self.has_in_table_scope(token.name) and self.has_in_table_scope("tr"):
                self.close_row()
                self.process(token)
        elif not token.is_end("body caption col colgroup html td th"):
            self.in_table(token)

    def close_row(self) -> None:
        """Ends a row (13.2.6.4.14)."""
        self.clear_stack_back_to("tr")
        self.stack.pop()
        self.mode = self.in_table_body

    def in_cell(self, token: Token) -> None:
        """The "in cell" insertion mode (13.2.6.4.15)."""
        if token.is_end("td th"):
            if self.has_in_table_scope(token.name):
                self.close_cell(token.name)
        elif token.is_start(TABLE_PARTS):
            assert self.has_in_table_scope("td th")
            self.close_cell("td th")
            self.process(token)
        elif token.is_end("body caption col colgroup html"):
            return
        elif token.is_end("table tbody tfoot thead tr"):
            if self.has_in_table_scope(token.name):
                self.close_cell("td th")
                self.process(token)
        else:
            self.in_body(token)

    def close_cell(self, names: str) -> None:
        """Closes the cell (13.2.6.4.15)."""
        self.generate_implied_end_tags()
        self.pop_until(names)
        self.clear_formatting()
        self.mode = self.in_row

    def in_template(self, token: Token) -> None:
        """The "in template" insertion mode (13.2.6.4.18)."""
        if token.kind in (Kind.CHARACTER, Kind.COMMENT, Kind.DOCTYPE):
            self.in_body(token)
        elif token.is_start(HEAD_CONTENT) or token.is_end("template"):
            self.in_head(token)
        elif token.is_start("caption colgroup tbody tfoot thead"):
            self.change_template_mode(token, self.in_table)
        elif token.is_start("col"):
            self.change_template_mode(token, self.in_column_group)
        elif token.is_start("tr"):
            self.change_template_mode(token, self.in_table_body)
        elif token.is_start("td th"):
            self.change_template_mode(token, self.in_row)
        elif token.kind is Kind.START_TAG:
            self.change_template_mode(token, self.in_body)
        elif token.kind is Kind.END_OF_FILE:
            if not self.has_open("template"):
                self.stop_parsing()
            else:
                self.leave_template()
                self.process(token)

    def change_template_mode(self, token: Token, mode: Mode) -> None:
        """Makes a mode the current template insertion mode and the insertion mode, and reprocesses the token
        (13.2.6.4.18)."""
        self.template_modes.pop()
        self.template_modes.append(mode)
        self.mode = mode
        self.process(token)

    def after_body(self, token: Token) -> None:
        """The "after body" insertion mode (13.2.6.4.19)."""
        if token.is_space():
            self.in_body(token)
        elif token.kind is Kind.COMMENT:
            self.insert_comment(self.stack[0])
        elif token.kind is Kind.DOCTYPE:
            return
        elif token.is_start("html"):
            self.in_body(token)
        elif token.is_end("html"):
            self.mode = self.after_after_body
        elif token.kind is Kind.END_OF_FILE:
            self.stop_parsing()
        else:
            self.mode = self.in_body
            self.process(token)

    def in_frameset(self, token: Token) -> None:
        """The "in frameset" insertion mode (13.2.6.4.20)."""
        if token.is_space():
            self.insert_character(token)
        elif token.kind is Kind.COMMENT:
            self.insert_comment()
        elif token.is_start("html"):
            self.in_body(token)
        elif token.is_start("frameset"):
            self.insert_element(token)
        elif token.is_end("frameset"):
            if len(self.stack) > 1:
                self.stack.pop()
                if not self.current.is_html("frameset"):
                    self.mode = self.after_frameset
        elif token.is_start("frame"):
            self.insert_void_element(token)
        elif token.is_start("noframes"):
            self.in_head(token)
        elif token.kind is Kind.END_OF_FILE:
            self.stop_parsing()

    def after_frameset(self, token: Token) -> None:
        """The "after frameset" insertion mode (13.2.6.4.21)."""
        if token.is_space():
            self.insert_character(token)
        elif token.kind is Kind.COMMENT:
            self.insert_comment()
        elif token.is_start("html"):
            self.in_body(token)
        elif token.is_end("html"):
            self.mode = self.after_after_frameset
        elif token.is_start("noframes"):
            self.in_head(token)
        elif token.kind is Kind.END_OF_FILE:
            self.stop_parsing()

    def after_after_body(self, token: Token) -> None:
        """The "after after body" insertion mode (13.2.6.4.22)."""
        if token.kind is Kind.COMMENT:
            self.insert_comment(self.document)
        elif token.kind is Kind.DOCTYPE or token.is_space() or token.is_start("html"):
            self.in_body(token)
        elif token.kind is Kind.END_OF_FILE:
            self.stop_parsing()
        else:
            self.mode = self.in_body
            self.process(token)

    def after_after_frameset(self, token: Token) -> None:
        """The "after after frameset" insertion mode (13.2.6.4.23)."""
        if token.kind is Kind.COMMENT:
            self.insert_comment(self.document)
        elif token.kind is Kind.DOCTYPE or token.is_space() or token.is_start("html"):
            self.in_body(token)
        elif token.kind is Kind.END_OF_FILE:
            self.stop_parsing()
        elif token.is_start("noframes"):
            self.in_head(token)

    def in_foreign_content(self, token: Token) -> None:
        """The rules for foreign content; no character is U+0000 (13.2.6.5)."""
        if token.kind is Kind.CHARACTER:
            self.character_in_foreign_content(token)
        elif token.kind is Kind.COMMENT:
            self.insert_comment()
        elif self.ends_foreign_content(token):
            while not (self.current.is_mathml_text_integration_point() or self.current.is_html_integration_point()
                       or self.current.namespace == HTML):
                self.stack.pop()
            self.mode(token)
        elif token.kind is Kind.START_TAG:
            self.start_in_foreign_content(token)
        elif token.kind is Kind.END_TAG:
            self.end_in_foreign_content(token)

    def character_in_foreign_content(self, token: Token) -> None:
        """A character in foreign content (13.2.6.5)."""
        self.insert_character(token)
        if not token.is_space():
            self.frameset_ok = False

    def ends_foreign_content(self, token: Token) -> bool:
        """Returns whether a tag ends foreign content (13.2.6.5)."""
        is_font = token.is_start("font") and not token.attributes.keys().isdisjoint(("color", "face", "size"))
        return token.is_start(BREAKOUT) or is_font or token.is_end("br p")

    def start_in_foreign_content(self, token: Token) -> None:
        """Any other start tag in foreign content; no attribute of these pages is adjusted (13.2.6.5)."""
        namespace = self.current.namespace
        adjusted = ADJUSTED.get(token.name, token.name) if namespace == SVG else token.name
        self.insert_element(replace(token, name=adjusted), namespace)
        if token.self_closing:
            self.stack.pop()

    def end_in_foreign_content(self, token: Token) -> None:
        """An end tag in foreign content; that of a `script` in SVG pops it, like any other (13.2.6.5)."""
        at = len(self.stack) - 1
        while at > 0:
            node = self.stack[at]
            if node.name.lower() == token.name:
                self.pop_until(node)
                return
            at -= 1
            if self.stack[at].namespace == HTML:
                self.mode(token)
                return


def shown(element: Element) -> list:
    """Returns an element as its name, its attributes and its children without comments, texts as such."""
    children = [node for node in element.children if not isinstance(node, Comment)]
    return [element.name, [list(pair) for pair in element.attributes.items()],
            [node.data if isinstance(node, Text) else shown(node) for node in children]]
