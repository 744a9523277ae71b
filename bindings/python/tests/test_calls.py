"""Tests of the library's calls from Python, with the installed package, or that in PYTHONPATH."""

import contextlib
import ctypes
import doctest
import io
import json
import pickle
import re
import sys
import threading
import unittest
import unittest.mock
from concurrent.futures import ThreadPoolExecutor
from pathlib import Path

BINDINGS = Path(__file__).resolve().parents[2]
sys.path.append(str(BINDINGS))

import refused  # noqa: E402
import rows  # noqa: E402
import typst_html_proved as html  # noqa: E402
from typst_html_proved import Info, Refused, element  # noqa: E402
from typst_html_proved._library import LIBRARY, Reply  # noqa: E402
from typst_html_proved._places import left  # noqa: E402

ROWS = [row for row in rows.rows() if row.kind != rows.KINDS["fragment-text"]]
FRAGMENTS = [row for row in rows.rows() if row.kind == rows.KINDS["fragment-text"]]
KINDS = ("tree", "items", "document")

# The ends of rows whose JSON is as deep as the reader accepts, so that it can't be inside an object.
DEEPEST = b"]" * 127


def outcome(call, *words, **more):
    """Returns the text, or the number and the span of a refusal, or what else was raised."""
    try:
        return call(*words, **more)
    except Refused as refused:
        return refused.number, refused.span
    except html.DeadLinks as dead:
        return dead.text, dead.links
    except html.Failure as failure:
        return type(failure)


def place(call, *words, **more):
    """Returns the place of a bad input, or else the outcome."""
    try:
        return call(*words, **more)
    except html.BadInput as bad:
        return bad.span, bad.line, bad.column
    except Refused as refused:
        return refused.number, refused.span


def dead_links(row):
    """Returns the links as the library lists them."""
    listed = json.loads(row.dead)["dead_links"]
    return tuple(html.DeadLink(it["span"], it["destination"]) for it in listed)


def wanted(row):
    if row.status == 5:
        return row.text.decode(), dead_links(row)
    return [row.text.decode(), (row.number, row.span), html.BadInput][row.status]


def wanted_place(row):
    return (row.span, row.line, row.column) if row.status == 2 else wanted(row)


def of_row(row):
    pretty = bool(row.layout)
    if row.kind < 2:
        return place(html.write_json, row.input, kind=KINDS[row.kind], pretty=pretty)
    known = json.loads(row.input)
    items, footnotes, head = (known.pop(name, []) for name in ("items", "footnotes", "head"))
    settings = {"pretty": pretty, "links": bool(row.links), "limit": row.limit}
    return outcome(html.write, items, info=Info(**known), footnotes=footnotes, head=head, **settings)


def settings_of(row):
    """Returns the arguments of `write_json` for a row."""
    links = {"links": bool(row.links), "limit": row.limit} if row.kind == 2 else {}
    return {"pretty": bool(row.layout), **links}


def at(value, path):
    """Returns the value at a path."""
    for step in path:
        value = value[step]
    return value


def paths_of(kind, given):
    """Returns the paths of the lists of items, in the order of their opening brackets."""

    def those(items, path):
        for index, item in enumerate(items if isinstance(items, list) else []):
            if isinstance(item, list):
                yield (*path, index)
                yield from inside(item, (*path, index))

    def inside(item, path):
        if item and item[0] in ("el", "block", "box"):
            yield from those(item[-1], (*path, len(item) - 1))
        elif item and item[0] == "role" and kind == 2 and isinstance(item[-1], list):
            yield (*path, 2)
            yield from inside(item[-1], (*path, 2))

    if kind == 2:
        for name in ("items", "footnotes", "head"):
            yield from those(given.get(name, []) if isinstance(given, dict) else [], (name,))
    elif kind == 1:
        yield from those(given, ())
    elif isinstance(given, list):
        yield ()
        yield from inside(given, ())


class Calls(unittest.TestCase):
    def test_rows_are_as_the_program_writes_them(self):
        self.assertGreater(len(ROWS), 3000)
        for row in ROWS:
            with self.subTest(row.input):
                self.assertEqual(of_row(row), wanted_place(row))

    def test_documents_without_information_are_their_items(self):
        for row in ROWS:
            if row.kind == 1 and not row.input.endswith(DEEPEST):
                with self.subTest(row.input):
                    data = b'{"items":' + row.input + b"}"
                    found = outcome(html.write_json, data, kind="document", pretty=bool(row.layout))
                    if not (row.status == 2 and self.are_of_a_document(row.input)):
                        self.assertEqual(found, wanted(row))

    def are_of_a_document(self, items):
        """Whether items have the forms that documents alone have."""
        try:
            return left("document", {"items": json.loads(items)}) is None
        except (ValueError, RecursionError):
            return False

    def test_documents_in_json_have_links_and_a_limit(self):
        for row in ROWS:
            if row.kind == 2:
                with self.subTest(row.input):
                    settings = {"pretty": bool(row.layout), "links": bool(row.links), "limit": row.limit}
                    found = outcome(html.write_json, row.input, kind="document", **settings)
                    self.assertEqual(found, wanted(row))

    def test_rows_of_fragments_are_as_the_library_writes_them(self):
        self.assertGreater(len(FRAGMENTS), 10)
        for row in FRAGMENTS:
            settings = {"level": ("block", "inline")[row.level], "limit": row.limit}
            for call, given in ((html.write_fragment_json, row.input), (html.write_fragment, json.loads(row.input))):
                with self.subTest((call, row.input)):
                    self.assertEqual(outcome(call, given, **settings), wanted(row))

    def test_fragments_name_the_item(self):
        with self.assertRaises(Refused) as caught:
            html.write_fragment(["a", element("div", element("br", "no"))])
        self.assertEqual((caught.exception.path, caught.exception.item), ((1, 3, 0), element("br", "no")))
        with self.assertRaises(html.BadInput) as caught:
            html.write_fragment_json('[["space"],["role",null,["text",7]]]')
        self.assertEqual((caught.exception.path, caught.exception.where), ((1, 2), "write_fragment_json(data[1][2])"))
        for arguments, where in (({"level": "line"}, "level"), ({"limit": 0}, "limit"), ({"limit": 10_001}, "limit")):
            with self.assertRaises(html.BadInput) as caught:
                html.write_fragment([], **arguments)
            self.assertEqual(caught.exception.where, f"write_fragment({where})")

    def test_a_short_buffer_stays(self):
        data = b'["el","p",[],[["text","a"]]]'
        output = ctypes.create_string_buffer(b"." * 22)
        reply = LIBRARY.typst_html_write(0, 0, data, len(data), output, 21)
        self.assertEqual((reply.status, reply.length, output.raw), (4, 23, b"." * 22 + b"\0"))

    def test_a_text_far_longer_than_its_input(self):
        item = element("ul", *[element("li")] * 400)
        for _ in range(55):
            item = element("div", item)
        text = html.write_tree(item, pretty=True)
        self.assertGreater(len(text), 4 * len(json.dumps(item)) + 1024)
        self.assertTrue(text.endswith("\n</div>\n"))

    def test_what_is_known_stands_in_the_head(self):
        info = Info("T", "D", ["A", "B"], ["k", "l"], "de", "AT")
        text = html.write([], info=info)
        for part in ('<html lang="de-AT">', "<title>T</title>", 'content="D"', 'content="A, B"', 'content="k, l"'):
            self.assertIn(part, text)
        self.assertIn('<html lang="en">', html.write([], info=Info(region="AT")))

    def test_links_and_footnotes(self):
        items = [html.start(1, 7), element("a", "b"), html.end(1), html.start(7), element("h2"), html.end(7)]
        text = html.write(items, footnotes=[element("p", "n")], links=True)
        self.assertTrue(text.endswith('<body><a href="#loc-1">b</a><h2 id="loc-1"></h2><p>n</p></body></html>'), text)
        self.assertIn("<a>b</a>", html.write(items))

    def test_links_that_lead_nowhere(self):
        items, footnotes = [html.start(1, 7), element("a", "b")], [html.start(2, (1 << 64) - 1), element("a")]
        with self.assertRaises(html.DeadLinks) as caught:
            html.write(items, footnotes=footnotes, links=True)
        dead = caught.exception
        self.assertEqual(dead.links, (html.DeadLink(2, 7), html.DeadLink(5, (1 << 64) - 1)))
        self.assertEqual(dead.text, html.write(items, footnotes=footnotes))
        self.assertEqual((dead.span, str(dead)), (2, "links lead nowhere (2, the first at 2)"))
        data = json.dumps({"items": items, "footnotes": footnotes})
        self.assertEqual(outcome(html.write_json, data, kind="document", links=True), (dead.text, dead.links))
        self.assertEqual(html.write_json(data, kind="document"), dead.text)

    def test_what_an_own_root_leaves_unused(self):
        info = Info(title="T", keywords=["k"], lang="de", region="AT")
        self.assertEqual(html.unused([element("html")], info=info), ("title", "keywords", "lang", "region"))
        self.assertEqual(html.unused([element("p")], info=info), ())
        with self.assertRaises(Refused) as caught:
            html.unused(["a", element("P Q")], info=info)
        self.assertEqual((caught.exception.number, caught.exception.path), (2, ("items", 1)))

    def test_every_item(self):
        body = ["a", html.SPACE, html.BREAK, html.HOLE]
        self.assertIn("<div>a", html.write([html.block(*body), html.box(*body)]))

    def test_places_by_name(self):
        items = [html.link("a b"), element("a", "b"), html.role("note", html.block(html.place("a b"), element("h2")))]
        self.assertIn('<a href="#a%20b">b</a><h2 id="a b" role="note"></h2>', html.write(items, links=True))

    def test_dead_links_have_names(self):
        there = [html.link("b"), element("a"), html.link("a"), html.role(None, element("a")), html.place("b"), "c"]
        with self.assertRaises(html.DeadLinks) as caught:
            html.write(there, links=True)
        (dead,) = caught.exception.links
        self.assertEqual((dead.destination, dead.name, dead.path), (2, "a", ("items", 3, 2)))
        self.assertIs(dead.item, there[3][2])

    def test_css_labels_roles_and_a_head(self):
        items = [html.role("note", element("em", css={"color": "red"})), html.start(1, 7), element("a"), html.start(7, label="q"), "x"]
        text = html.write(items, head=["h", element("meta")], info=Info(title="T"), links=True)
        self.assertIn("<title>T</title>h<meta></head>", text)
        self.assertIn('<em role="note" style="color: red"></em><a href="#q"></a><span id="q">x</span>', text)
        self.assertEqual(html.unused([element("html")], info=Info(title="T"), head=["h"]), ("title", "head"))
        self.assertEqual(html.unused([element("html")], head=()), ())

    def test_where_the_forms_of_documents_are_left(self):
        for where, call in (
            ("write(items[1])", lambda: html.write([html.place("a"), html.start(1)])),
            ("write(head[0])", lambda: html.write(["a"], head=[html.SPACE])),
            ("write(head[0][3][0])", lambda: html.write(["a"], head=[element("p", html.block())])),
            ("write(items[0][2])", lambda: html.write([html.role("a", html.Node(["text"]))])),
            ("write(items[0][4][0])", lambda: html.write([element("p", html.Node(["space", 1]), css={"a": "b"})])),
            ("write_tree(root)", lambda: html.write_tree(element("p", css={"a": "b"}))),
        ):
            with self.subTest(where), self.assertRaises(html.BadInput) as caught:
                call()
            self.assertEqual(caught.exception.where, where)

    def test_refusals(self):
        with self.assertRaises(Refused) as caught:
            html.write(["a", element("p", attrs=[("a b", "c")])], footnotes=["n"])
        self.assertEqual((caught.exception.number, caught.exception.span), (7, 2))
        self.assertEqual(str(caught.exception), f"{html.WORDS[7]} (refusal 7 at 2, items[1])")
        self.assertEqual(outcome(html.write, ["a"], footnotes=[element("P Q")]), (2, 2))
        self.assertEqual(outcome(html.write, ["\0"]), (11, 1))

    def test_bad_input(self):
        for bad in ([3], [None], [["text"]], [object()], [["el", "p", {}, []]], ["\ud800"]):
            with self.subTest(bad):
                self.assertIs(outcome(html.write, bad), html.BadInput)
        for limit in (-1, 0, 10_001, 1 << 40):
            self.assertIs(outcome(html.write, [], limit=limit), html.BadInput)
        self.assertIs(outcome(html.write_json, "[]", kind="trees"), html.BadInput)
        self.assertIs(outcome(html.write_tree, html.block()), html.BadInput)
        for data, words in (('[["space"],["text",1]]', "write_json(data[1])"), ("[\n{}", "line 2 column 2")):
            with self.assertRaises(html.BadInput) as caught:
                html.write_json(data)
            self.assertEqual(str(caught.exception), f"bad input at {words}")
        deep = []
        for _ in range(100_000):
            deep = ["el", "b", [], [deep]]
        self.assertIs(outcome(html.write, [deep]), html.BadInput)
        for count in (64, 2_000, 100_000):
            item = element("b")
            for _ in range(1, count):
                item = element("b", item)
            self.assertIs(outcome(html.write, [item], limit=10_000), html.BadInput)
            self.assertIs(outcome(html.write_tree, item), html.BadInput)

    def test_what_is_refused_for_its_type(self):
        for where, what, call in refused.REFUSED:
            with self.subTest(where, what=what):
                with self.assertRaises(html.BadInput) as caught:
                    call()
                bad = caught.exception
                self.assertEqual((bad.where, bad.what), (where, what))
                self.assertEqual(str(bad), f"bad input at {where}: {what}")

    def test_where_a_part_has_no_json(self):
        text, ring, deep = "\ud800", ["block", []], ["block", []]
        ring[1].append(ring)
        for _ in range(100_000):
            deep = ["block", [deep]]
        for where, call in (
            ("Info(title)", lambda: html.write(["a"], info=Info(title=text))),
            ("Info(keywords[1])", lambda: html.write(["a"], info=Info(keywords=["a", text]))),
            ("write(items[2])", lambda: html.write(["a", "b", element("p", text)], footnotes=[text])),
            ("write(footnotes[1])", lambda: html.write(["a", "b"], footnotes=["c", text])),
            ("write(items[1])", lambda: html.write(["a", html.Node(["text", object()])])),
            ("write(items[1])", lambda: html.write(["a", ring])),
            ("write(items[1])", lambda: html.write(["a", deep])),
            ("write_tree(root)", lambda: html.write_tree(text)),
            ("write_json(data)", lambda: html.write_json(text)),
            ("check(page)", lambda: html.check(text)),
        ):
            with self.subTest(where), self.assertRaises(html.BadInput) as caught:
                call()
            self.assertEqual(caught.exception.where, where)
            self.assertTrue(caught.exception.what)
        paragraph = element("p", text)
        with self.assertRaises(html.BadInput) as caught:
            html.write(["a", paragraph])
        self.assertEqual(caught.exception.path, ("items", 1))
        self.assertIs(caught.exception.item, paragraph)

    def test_where_the_library_reports(self):
        left = "a value is not what the form wants"
        for where, what, call in (
            ("write_json(data[1])", left, lambda: html.write_json('[["space"],["text",1]]')),
            ("write_json(data.items[0][1][1])", left,
             lambda: html.write_json('{"items":[["box",[["hole"],7]]]}', kind="document")),
            ("write_json(data.region)", left, lambda: html.write_json('{"region":"AT"}', kind="document")),
            ("write_json(data)", left, lambda: html.write_json("7", kind="document")),
            ("write(items[1])", left, lambda: html.write(["a", html.Node(["text"])])),
            ("write(footnotes[0][3][0])", left, lambda: html.write([], footnotes=[html.Node(["el", "p", [], [[]]])])),
            ("write_tree(root[3][1])", left, lambda: html.write_tree(element("p", "a", html.SPACE))),
            ("write_tree(root)", left, lambda: html.write_tree(html.block())),
            ("line 2 column 2", "it is no JSON", lambda: html.write_json("[\n{}")),
            ("2:3", "a byte that is no text", lambda: html.check(b"\xef\xbb\xbf<p>\nab\xff")),
        ):
            with self.subTest(where), self.assertRaises(html.BadInput) as caught:
                call()
            self.assertEqual((caught.exception.where, caught.exception.what), (where, what))

    def test_refusals_name_the_item(self):
        seen = 0
        for row in ROWS:
            if row.status == 1:
                with self.subTest(row.input), self.assertRaises(Refused) as caught:
                    html.write_json(row.input, kind=KINDS[row.kind], **settings_of(row))
                refused = caught.exception
                paths = [None, *paths_of(row.kind, json.loads(row.input))]
                self.assertEqual(refused.path, paths[refused.span])
                if refused.path is not None:
                    self.assertEqual(refused.item, at(json.loads(row.input), refused.path))
                    seen += 1
        self.assertGreater(seen, 200)

    def test_bad_inputs_name_the_item(self):
        seen = 0
        for row in ROWS:
            if row.status == 2 and not row.line:
                with self.subTest(row.input), self.assertRaises(html.BadInput) as caught:
                    html.write_json(row.input, kind=KINDS[row.kind], **settings_of(row))
                bad = caught.exception
                value = at(json.loads(row.input), bad.path)
                is_item = len(bad.path) >= (0, 1, 2)[row.kind]
                self.assertEqual(bad.item, value if is_item else None)
                # If a list leaves the form, it is the last that is opened; otherwise the next value does.
                paths = [None, *paths_of(row.kind, json.loads(row.input))]
                if isinstance(value, list) and is_item:
                    self.assertEqual(paths[bad.span], bad.path)
                seen += 1
        self.assertGreater(seen, 50)

    def test_the_item_is_the_one_that_was_given(self):
        br = element("br", "no")
        with self.assertRaises(Refused) as caught:
            html.write(["a", html.block("b", br)])
        self.assertIs(caught.exception.item, br)
        self.assertEqual(caught.exception.path, ("items", 1, 1, 1))
        with self.assertRaises(Refused) as caught:
            html.write_tree(br)
        self.assertIs(caught.exception.item, br)
        self.assertEqual((caught.exception.path, str(caught.exception)), ((), f"{html.WORDS[12]} (refusal 12 at 1)"))
        with self.assertRaises(Refused) as caught:
            html.write([], info=Info(title="\0"))
        self.assertEqual((caught.exception.path, caught.exception.item, caught.exception.span), (None, None, 0))
        link = element("a", "b")
        with self.assertRaises(html.DeadLinks) as caught:
            html.write([html.start(1, 7), link], footnotes=[html.start(2, 8), html.box(element("a"))], links=True)
        dead, behind = caught.exception.links
        self.assertIs(dead.item, link)
        self.assertEqual((dead.path, dead.span), (("items", 1), 2))
        self.assertEqual((behind.path, behind.span, behind.item), (("footnotes", 1, 1, 0), 6, element("a")))

    def test_the_item_that_is_too_deep(self):
        for call, count in ((html.write_tree, 64), (lambda root: html.write([root], limit=10_000), 63)):
            item = deepest = element("b")
            for _ in range(1, count):
                item = element("b", item)
            with self.assertRaises(html.BadInput) as caught:
                call(item)
            bad = caught.exception
            self.assertIs(bad.item, deepest)
            self.assertEqual(bad.what, "it holds what stands deeper than JSON is read, which is 127 levels")
            self.assertLess(len(bad.where), 20)
            with self.assertRaises(html.BadInput) as caught:
                call(element("b", item))
            self.assertEqual((caught.exception.path, caught.exception.what), (bad.path, bad.what))
            self.assertTrue(call(item[3][0]))

    def test_what_nothing_changes(self):
        for error, change in refused.FIXED:
            with self.subTest(error), self.assertRaises(error):
                change()
        self.assertEqual((html.WORDS[1], html.SPACE[0]), ("tag name must not be empty", "space"))

    def test_failures_go_to_other_processes(self):
        for failure in (
            Refused(8, 21, html.Place(21, 2, 1)),
            Refused(12, 2, None, ("items", 1), element("br", "no")),
            html.BadInput("an item is None", where="write(items[1])"),
            html.BadInput(where="write(items[1])", span=2, path=("items", 1), item=html.Node(["text"])),
            html.BadInput(line=2, column=1),
            html.BadInput("a byte that is no text", place=html.Place(0, 1, 1)),
            html.DeadLinks("a", (html.DeadLink(2, 7, ("items", 1), element("a")),)),
            html.OutOfMemory(),
            html.OtherLibrary(),
        ):
            with self.subTest(failure):
                found = pickle.loads(pickle.dumps(failure))
                self.assertEqual((type(found), str(found), vars(found)), (type(failure), str(failure), vars(failure)))

    def test_attributes_and_items_of_each_type(self):
        texts = refused.taken()
        self.assertEqual(texts, texts[:1] * len(texts))
        self.assertTrue(texts[0].endswith('<body><p id="x">a</p></body></html>'), texts[0])

    def test_one_text_is_one_item(self):
        self.assertEqual(html.write("a  b", footnotes="c"), html.write(["a  b"], footnotes=["c"]))

    def test_a_library_that_replies_otherwise(self):
        # A status that is none, and a length that is no longer than the buffer of a text that does not fit.
        for status, length in ((5, 0), (255, 1 << 20), (4, 0), (4, 7)):
            calls = iter(range(10))

            def call(*_):
                next(calls)
                return Reply(length=length, status=status)

            with unittest.mock.patch.object(LIBRARY, "typst_html_write", call), self.subTest(status, length=length):
                self.assertIs(outcome(html.write_json, "[]"), html.OtherLibrary)

    def test_findings(self):
        page = '<!DOCTYPE html><p id="a"><a href="#b%20c&quot;">x</a><b id="a"></b><b id="a">y</b></p>'
        found = html.check(page)
        self.assertEqual(found.dead_fragments, (html.DeadFragment((1, 0, 0), 'b%20c"', html.Place(25, 1, 26)),))
        repeated = [html.RepeatedId((1, 0, it), "a", html.Place(at, 1, at + 1)) for it, at in ((1, 53), (2, 67))]
        self.assertEqual(list(found.repeated_ids), repeated)
        self.assertTrue(found)

    def test_misnested_nodes(self):
        found = html.check("<p><table></table><b><table></table></b>")  # in quirks mode a table stays in a p
        why = "closes the p that it stands in"
        places = (((1, 0, 0), html.Place(3, 1, 4)), ((1, 0, 1, 0), html.Place(21, 1, 22)))
        wanted = tuple(html.Misnested(path, "ClosesParagraph", why, place) for path, place in places)
        self.assertEqual(found, html.Findings(misnested=wanted))
        self.assertTrue(found)

    def test_links_of_a_page(self):
        page = '<html id=r><p id="">é<a id=s name=t href="b.html#c">x</a><map><area href></map>'
        root, a, area = ((), html.Place(0, 1, 1)), ((1, 0, 1), html.Place(22, 1, 22)), ((1, 0, 2, 0), html.Place(63, 1, 63))
        listed = html.links(page)
        self.assertEqual(listed.ids, tuple(html.PageId(path, id, place) for id, (path, place) in (("r", root), ("s", a))))
        self.assertEqual(listed.names, (html.PageName(a[0], "t", a[1]),))
        links = tuple(html.PageLink(path, href, place) for href, (path, place) in (("b.html#c", a), ("", area)))
        self.assertEqual(listed.links, links)
        self.assertEqual(html.links(page.encode()), listed)
        for bad, limit, failure in (("<p><b>a", 3, Refused), ("", 0, html.BadInput), (b"\xef\xbb\xbf\xff", 50, html.BadInput)):
            with self.subTest(bad), self.assertRaises(failure):
                html.links(bad, limit=limit)

    def test_pages_are_read_as_browsers_read_them(self):
        page = "\ufeff<TITLE>Pie</TITLE>\r\n<UL><LI>Salt\r\n<LI>ä & <A HREF=#gone>x</A>"
        dead = html.DeadFragment((1, 0, 1, 1), "gone", html.Place(46, 3, 9))
        self.assertEqual(html.check(page), html.Findings((dead,), ()))
        for page in ("", "<", "<!DOCTYPE html>\n<p>é & x</b>", "<a href=#>"):
            with self.subTest(page):
                self.assertFalse(html.check(page))

    def test_links_that_are_given_lead(self):
        items = [html.start(1, 7), element("a", "b"), html.end(1), html.start(7), element("h2"), html.end(7)]
        page = html.write(items, links=True)
        self.assertEqual(html.check(page), html.Findings((), ()))
        self.assertFalse(html.check(page.encode()))

    def test_pages_that_are_not_read(self):
        page = "<!DOCTYPE html><p>é\n<b></b></p>"
        with self.assertRaises(Refused) as caught:
            html.check(page, limit=3)
        refused = caught.exception
        self.assertEqual((refused.number, refused.span, refused.place), (8, 21, html.Place(21, 2, 1)))
        self.assertEqual(str(refused), f"{html.WORDS[8]} (refusal 8 at 2:1)")
        self.assertFalse(html.check(page, limit=4))
        for bad, limit in ((page, 0), (page, 1_001), (page, -1), ("\ud800", 50)):
            with self.subTest(bad, limit=limit), self.assertRaises(html.BadInput) as caught:
                html.check(bad, limit=limit)
            self.assertIsNone(caught.exception.place)
        many = "".join(f" a{count}" for count in range(257))
        for page, number, place in (
            (f"<p>\r\n<b{many}>", 28, (5, 2, 1)),
            (f"<head></head>\r<template{many}>", 28, (14, 2, 1)),
        ):
            with self.subTest(page), self.assertRaises(Refused) as caught:
                html.check(page)
            refused = caught.exception
            self.assertEqual((refused.number, refused.place), (number, html.Place(*place)))
            self.assertIn(refused.words, html.WORDS.values())
        for bad, place in (
            (b"\xef\xbb\xbf\xff", (3, 1, 1)),
            (b"<meta charset=utf8>\n<p>\xc3\xa9\xe9</p>", (25, 2, 5)),
            (b"\xef\xbb\xbf<table>a\xff", (11, 1, 9)),
            (b"\xff\xfe<\0p\0>\0\n\0\0\xd8a\0", (10, 2, 1)),
        ):
            with self.subTest(bad), self.assertRaises(html.BadInput) as caught:
                html.check(bad)
            self.assertEqual(caught.exception.place, html.Place(*place))
            self.assertEqual(str(caught.exception), f"bad input: a byte that is no text at {html.Place(*place)}")

    def test_encodings(self):
        page = '<p id="é">\n<a href="#é">x</a><a href="#ß">y</a>'
        dead = html.check(page).dead_fragments
        self.assertEqual([(it.fragment, it.place) for it in dead], [("ß", html.Place(31, 2, 19))])
        for data, mark in (
            (page.encode(), 0),
            (page.encode("cp1252"), 0),  # it is no UTF-8
            (page.encode("utf-8-sig"), 3),
            (b"\xff\xfe" + page.encode("utf-16-le"), 3),
            (b"\xfe\xff" + page.encode("utf-16-be"), 3),
        ):
            with self.subTest(data):
                (found,) = html.check(data).dead_fragments
                self.assertEqual((found.fragment, found.place), ("ß", html.Place(31 + mark, 2, 19)))
                self.assertEqual(html.links(data).ids[0].place, html.Place(mark, 1, 1))

    def test_labels(self):
        page = "<meta charset=latin1>\n<p id=é><a href=#é>"
        self.assertFalse(html.check(page))
        self.assertFalse(html.check(page.encode("latin1")))
        # the two bytes of é are two characters
        self.assertEqual(html.links(page.encode()).ids[0].id, "Ã©")
        # a label in a text counts for nothing
        for label in ("latin1", "utf-16", "big5"):
            with self.subTest(label):
                (found,) = html.links(f"<meta charset={label}>\n<p id=é>").ids
                self.assertEqual((found.id, found.place), ("é", html.Place(16 + len(label), 2, 1)))
        with self.assertRaises(Refused) as caught:
            html.check(b"\n<meta charset=big5>")
        refused = caught.exception
        self.assertEqual((refused.number, refused.place), (25, html.Place(15, 2, 15)))
        self.assertEqual(refused.words, "the page names an encoding that is not known")

    def test_the_deepest_page_on_a_small_stack(self):
        def checks():
            # html, body, and a div with a link at each other level but the last
            for limit in (4, 50, 500, 999, 1000):
                deep = limit - 3
                found = html.check('<div id="a"><a href="#b"></a>' * deep, limit=limit)
                checked.append((len(found.dead_fragments), len(found.repeated_ids) + 1) == (deep, deep))
                page = html.links('<div id="a"><a href="#b"></a>' * deep, limit=limit)
                checked.append((len(page.ids), len(page.links)) == (deep, deep))

        checked: list[bool] = []
        before = threading.stack_size(256 << 10)
        try:
            thread = threading.Thread(target=checks)
            thread.start()
        finally:
            threading.stack_size(before)
        thread.join()
        self.assertEqual(checked, [True] * 10)

    def test_findings_deep_in_their_page_have_whole_paths(self):
        link = '<a href="#x" id="i"></a>'
        page = f"<div>{link}" * 400 + link * 1000 + f"{link}</div>" * 400
        # The path of a div is 1 for the body and 0 for the first, then 1 behind each link.
        paths = [(1, 0) + (1,) * depth + (0,) for depth in range(400)]
        paths += [(1, 0) + (1,) * 399 + (last,) for last in range(1, 1002)]
        paths += [(1, 0) + (1,) * depth + (2,) for depth in reversed(range(399))]
        found = html.check(page, limit=1000)
        self.assertEqual([it.path for it in found.dead_fragments], paths)
        offsets = [match.start() for match in re.finditer("<a", page)]
        self.assertEqual([it.place.offset for it in found.dead_fragments], offsets)
        self.assertEqual([it.path for it in found.repeated_ids], paths[1:])

    def test_eight_threads_agree(self):
        with ThreadPoolExecutor(8) as threads:
            for row, found in zip(ROWS, threads.map(of_row, ROWS)):
                self.assertEqual(found, wanted_place(row))

    def test_ten_megabytes(self):
        one = element("p", "A paragraph of a long document, with a < b and an & in it.", attrs=[("class", "long")])
        text = html.write([one] * 100_000, pretty=True)
        self.assertEqual(text.count("with a &lt; b and an &amp; in it.</p>\n"), 100_000)

    def test_examples(self):
        failed, tried = doctest.testmod(html)
        self.assertGreater(tried, 4)
        self.assertEqual(failed, 0)
        for name in html.__all__:
            said = getattr(html, name)
            if getattr(said, "__module__", "") == html.__name__:
                with self.subTest(name):
                    self.assertIn(">>> ", said.__doc__)

    def test_examples_of_the_documents(self):
        found = 0
        for page in (BINDINGS / "python" / "README.md", BINDINGS.parent / "docs" / "GUIDE.md"):
            for example in re.findall(r"^```python\n(.*?)^```$", page.read_text(), re.M | re.S):
                with self.subTest(page.name), contextlib.redirect_stdout(io.StringIO()):
                    exec(compile(example, str(page), "exec"), {})
                found += 1
        self.assertGreater(found, 2)


if __name__ == "__main__":
    unittest.main()
