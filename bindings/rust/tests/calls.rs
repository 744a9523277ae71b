//! Tests of the library's calls from Rust.

use serde_json::Value;
use std::thread;
use typst_html_proved::*;

/// The outcome of a call, without the paths that this crate adds.
#[derive(Debug, PartialEq)]
enum Outcome {
    Text(String),
    Refused(u8, u64),
    BadInput(u64, usize, usize),
    DeadLinks(String, Vec<(u64, u64)>),
}

fn outcome(written: &Result<String, Refusal>) -> Outcome {
    match written {
        Ok(text) => Outcome::Text(text.clone()),
        Err(Refusal::Refused { number, span, .. }) => Outcome::Refused(*number, *span),
        Err(Refusal::BadInput {
            span, line, column, ..
        }) => Outcome::BadInput(*span, *line, *column),
        Err(Refusal::DeadLinks(dead)) => {
            let links = dead.links.iter();
            let links = links.map(|link| (link.span, link.destination)).collect();
            Outcome::DeadLinks(dead.text.clone(), links)
        }
        Err(other) => panic!("{other}"),
    }
}

/// A row with its expected outcome. A row without a kind is a document.
struct Row {
    kind: Option<Kind>,
    options: Options,
    input: Vec<u8>,
    wanted: Outcome,
}

impl Row {
    fn written(&self) -> Result<String, Refusal> {
        match self.kind {
            Some(kind) => write_json(kind, &self.input, self.options.pretty),
            None => write_document_json(&self.input, self.options),
        }
    }
}

fn bytes(value: &Value) -> Vec<u8> {
    let text = value.as_str().unwrap();
    (0..text.len())
        .step_by(2)
        .map(|at| u8::from_str_radix(&text[at..at + 2], 16).unwrap())
        .collect()
}

/// Returns the spans and the destinations of the links that the library lists in JSON.
fn dead_links(listed: &str) -> Vec<(u64, u64)> {
    let listed: Value = serde_json::from_str(listed).unwrap();
    let number = |link: &Value, name: &str| link[name].as_u64().unwrap();
    let links = listed["dead_links"].as_array().unwrap().iter();
    links
        .map(|link| (number(link, "span"), number(link, "destination")))
        .collect()
}

fn number(value: &Value, name: &str) -> u64 {
    value[name].as_u64().unwrap()
}

fn wanted(value: &Value) -> Outcome {
    let number = |name: &str| number(value, name);
    let text = |name: &str| String::from_utf8(bytes(&value[name])).unwrap();
    match number("status") {
        0 => Outcome::Text(text("text")),
        5 => Outcome::DeadLinks(text("text"), dead_links(&text("dead"))),
        1 => Outcome::Refused(number("number") as u8, number("span")),
        _ => Outcome::BadInput(
            number("span"),
            number("line") as usize,
            number("column") as usize,
        ),
    }
}

fn row(value: &Value) -> Row {
    let number = |name: &str| number(value, name);
    Row {
        kind: [Some(Kind::Tree), Some(Kind::Items), None][number("kind") as usize],
        options: Options::new()
            .pretty(number("layout") == 1)
            .links(number("links") == 1)
            .limit(number("limit") as u32),
        input: bytes(&value["input"]),
        wanted: wanted(value),
    }
}

/// The number of the kind of rows for items by themselves.
const FRAGMENT: u64 = 3;

/// Returns the rows of crates/tests_rows. bindings/rows.py writes them into the file that
/// TYPST_HTML_ROWS names.
fn all_rows() -> Vec<Value> {
    let path = std::env::var("TYPST_HTML_ROWS")
        .unwrap_or_else(|_| format!("{}/../out/rows.json", env!("CARGO_MANIFEST_DIR")));
    let text = std::fs::read(&path).unwrap_or_else(|error| panic!("{path}: {error}"));
    serde_json::from_slice(&text).unwrap()
}

/// Returns the rows for trees, items and documents.
fn rows() -> Vec<Row> {
    let all = all_rows();
    let others = all.iter().filter(|value| number(value, "kind") != FRAGMENT);
    others.map(row).collect()
}

/// The end of rows whose JSON has the greatest depth that is read, so that it can't stand in an
/// object.
const DEEPEST: [u8; 127] = [b']'; 127];

/// Returns the JSON of a document without information, from that of its items.
fn document_around(items: &[u8]) -> Vec<u8> {
    [br#"{"items":"#.as_slice(), items, b"}"].concat()
}

#[test]
fn rows_are_as_the_program_writes_them() {
    for row in rows() {
        let what = String::from_utf8_lossy(&row.input);
        assert_eq!(outcome(&row.written()), row.wanted, "{what}");
    }
}

/// Collects the lists of items in a value, in the order of their opening brackets, by a recursion
/// of its own.
fn lists<'a>(kind: Option<Kind>, value: &'a Value, found: &mut Vec<&'a Value>) {
    fn those<'a>(items: &'a Value, found: &mut Vec<&'a Value>) {
        for item in items.as_array().into_iter().flatten() {
            inside(item, found);
        }
    }
    fn inside<'a>(item: &'a Value, found: &mut Vec<&'a Value>) {
        if let Some(list) = item.as_array() {
            found.push(item);
            match item[0].as_str() {
                Some("el" | "block" | "box") => {
                    list.last().into_iter().for_each(|body| those(body, found));
                }
                Some("role") => inside(&item[2], found),
                _ => {}
            }
        }
    }
    match kind {
        Some(Kind::Tree) => inside(value, found),
        Some(_) => those(value, found),
        None => {
            those(&value["items"], found);
            those(&value["footnotes"], found);
            those(&value["head"], found);
        }
    }
}

/// Returns the part of a value to which a path leads.
fn at<'a>(value: &'a Value, path: &ItemPath) -> &'a Value {
    path.steps().iter().fold(value, |value, step| match step {
        Step::Index(at) => &value[*at],
        Step::Name(name) => &value[name],
    })
}

#[test]
fn what_is_refused_or_bad_has_its_item() {
    let mut seen = 0;
    for row in rows() {
        let refusal = match row.written() {
            Err(refusal) => refusal,
            Ok(_) => continue,
        };
        let what = String::from_utf8_lossy(&row.input);
        let value: Value = match serde_json::from_slice(&row.input) {
            Ok(value) => value,
            Err(_) => {
                assert_eq!(refusal.path(), None, "{what}");
                continue;
            }
        };
        let mut found = Vec::new();
        lists(row.kind, &value, &mut found);
        let list = found.get((refusal.span() as usize).wrapping_sub(1));
        let there = refusal.path().map(|path| at(&value, path));
        match refusal {
            Refusal::Refused { span: 0, .. } => assert_eq!(there, None, "{what}"),
            // That list does not have the form, or else the next value, which has no number.
            Refusal::BadInput { .. } if !there.unwrap().is_array() || list.is_none() => {}
            _ => assert!(std::ptr::eq(there.unwrap(), *list.unwrap()), "{what}"),
        }
        seen += 1;
    }
    assert!(seen > 300, "{seen}");
}

#[test]
fn documents_without_information_are_their_items() {
    for row in rows() {
        if row.kind == Some(Kind::Items) && !row.input.ends_with(&DEEPEST) {
            let input = document_around(&row.input);
            let written = write_document_json(&input, row.options);
            match row.wanted {
                // A document may have other items too, so its outcome may differ.
                Outcome::BadInput(_, 0, _) => {
                    assert!(matches!(written, Ok(_) | Err(Refusal::BadInput { .. })));
                }
                // Input that is no JSON is refused at another place, or at none.
                Outcome::BadInput(_, 1.., _) => {
                    assert!(matches!(written, Err(Refusal::BadInput { .. })));
                }
                wanted => assert_eq!(outcome(&written), wanted),
            }
        }
    }
}

/// From JSON and from items that are read from it, with the item of a refusal.
#[test]
fn rows_of_fragments_are_as_the_library_writes_them() {
    let all = all_rows();
    let mut seen = 0;
    for value in all.iter().filter(|value| number(value, "kind") == FRAGMENT) {
        let json = bytes(&value["input"]);
        let level = [Level::Block, Level::Inline][number(value, "level") as usize];
        let limit = number(value, "limit") as u32;
        let items: Vec<Item> = serde_json::from_slice(&json).unwrap();
        let written = write_fragment_json(&json, level, limit);
        assert_eq!(outcome(&written), wanted(value));
        assert_eq!(write_fragment(&items, level, limit), written);
        if let Err(refusal) = written {
            let path = refusal.path().unwrap();
            let there = path.item_in(&items).unwrap();
            let given: Value = serde_json::from_slice(&json).unwrap();
            assert_eq!(&serde_json::to_value(there).unwrap(), at(&given, path));
        }
        seen += 1;
    }
    assert!(seen > 10, "{seen}");
}

#[test]
fn fragments_have_the_forms_of_documents() {
    let json = br#"[["role","note",["el","div",[],[["color","red"]],[["text","a"]]]]]"#;
    let text = write_fragment_json(json, Level::Block, 50).unwrap();
    assert_eq!(text, r#"<div role="note" style="color: red">a</div>"#);
    let refusal = write_fragment_json(br#"[["space"],["role",null,["text",7]]]"#, Level::Block, 50);
    assert_eq!(refusal.unwrap_err().to_string(), "bad input at 3, [1][2]");
    let refusal = write_fragment_json(br#"{"items":[]}"#, Level::Block, 50);
    assert_eq!(refusal.unwrap_err().path().unwrap().steps(), []);
    for limit in [0, 10_001] {
        let refusal = write_fragment(&["a".into()], Level::Block, limit);
        assert!(matches!(refusal, Err(Refusal::BadInput { .. })));
    }
    let refusal = write_fragment_json(br#"[["el","p","#, Level::Block, 50).unwrap_err();
    assert_eq!((refusal.span(), refusal.path()), (0, None));
}

#[test]
fn the_version_is_that_of_the_library() {
    assert_eq!(version(), VERSION);
}

#[test]
fn types_go_between_threads() {
    fn is_sent<T: Send + Sync + 'static>() {}
    is_sent::<Document>();
    is_sent::<Element>();
    is_sent::<Options>();
    is_sent::<Refusal>();
    let _error: Box<dyn std::error::Error + Send + Sync> = Refusal::BAD_INPUT.into();
}

#[test]
fn every_item_is_spelled() {
    let body = vec!["a".into(), Item::Space, Item::Break, Item::Hole];
    let document = Document::new()
        .item(Item::Block(body.clone()))
        .item(Item::Box(body))
        .item(Item::Start {
            location: 1,
            destination: Some(7),
            label: None,
        })
        .item(Element::new("a").child("b"))
        .item(Item::End(1))
        .item(Item::Start {
            location: 7,
            destination: None,
            label: None,
        })
        .item(Element::new("h2").attr("class", "c"))
        .item(Item::End(7))
        .footnote(Element::new("p").child("n"));
    let text = write(&document, Options::new().links(true)).unwrap();
    assert!(text.contains(r##"<a href="#loc-1">b</a><h2"##), "{text}");
    assert!(text.ends_with("<p>n</p></body></html>"), "{text}");
    let text = write(&document, Options::new()).unwrap();
    assert!(text.contains("<a>b</a>"), "{text}");
}

#[test]
fn what_is_known_stands_in_the_head() {
    let document = Document::new()
        .title("T")
        .description("D")
        .author("A")
        .author("B")
        .keyword("k")
        .keyword("l")
        .lang("en", "");
    let text = write(&document, Options::new()).unwrap();
    for part in [
        r#"<html lang="en">"#,
        "<title>T</title>",
        r#"name="description" content="D""#,
        r#"content="A, B""#,
        r#"content="k, l""#,
    ] {
        assert!(text.contains(part), "{part} in {text}");
    }
}

#[test]
fn what_an_own_root_leaves_unused_is_listed() {
    let document = Document::new()
        .title("T")
        .keyword("k")
        .lang("de", "AT")
        .item(Element::new("html"));
    let wanted = ["title", "keywords", "lang", "region"];
    assert_eq!(unused(&document, 50).unwrap(), wanted);
    let shown = Document::new().title("T").item(Element::new("p"));
    assert!(unused(&shown, 50).unwrap().is_empty());
    let refusal = unused(&shown.item(Element::new("P Q")), 50).unwrap_err();
    assert_eq!(
        (refusal.number(), refusal.path().unwrap().to_string()),
        (2, "items[1]".into())
    );
}

#[test]
fn a_region_without_a_language_is_left_out() {
    let mut document = Document::new();
    document.info.region = Some("AT".into());
    assert!(write(&document, Options::new()).is_ok());
}

#[test]
fn limits_out_of_range_are_bad_input() {
    let of = |limit| write(&Document::new(), Options::new().limit(limit)).is_ok();
    assert_eq!(
        [0, 1, 10_000, 10_001, u32::MAX].map(of),
        [false, true, true, false, false]
    );
}

#[test]
fn refusals_have_numbers_spans_and_words() {
    let wrong = Document::new()
        .item("a")
        .item(Element::new("p").attr("a b", "c"));
    let refusal = write(&wrong, Options::new()).unwrap_err();
    assert_eq!((refusal.number(), refusal.span()), (7, 2));
    assert_eq!(
        refusal.words(),
        "a character is not valid in an attribute name"
    );
    let message = "a character is not valid in an attribute name (refusal 7 at 2, items[1])";
    assert_eq!(refusal.to_string(), message);
    assert_eq!(Refusal::BAD_INPUT.to_string(), "bad input");
    let report = |json| {
        write_json(Kind::Items, json, false)
            .unwrap_err()
            .to_string()
    };
    assert_eq!(report(br#"[["space"],["text",1]]"#), "bad input at 2, [1]");
    assert_eq!(report(b"[7]"), "bad input at [0]");
    assert_eq!(report(b"[\n{}"), "bad input at line 2 column 2");
    let report = |json| {
        write_document_json(json, Options::new())
            .unwrap_err()
            .to_string()
    };
    assert_eq!(
        report(br#"{"items":[["box",[["hole"],7]]]}"#),
        "bad input at 2, items[0][1][1]"
    );
    assert_eq!(
        report(br#"{"items":[["hole"]],"footnotes":7}"#),
        "bad input at footnotes"
    );
    assert_eq!(
        report(br#"{"title":"t","region":"AT"}"#),
        "bad input at region"
    );
    assert_eq!(report(b"[]"), "bad input");
}

#[test]
fn the_item_of_a_refusal_is_in_the_document() {
    let link = Element::new("a").child("there");
    let start = Item::Start {
        location: 1,
        destination: Some(7),
        label: None,
    };
    let body = vec![start, link.into(), Element::new("br").child("no").into()];
    let mut document = Document::new().item("a").footnote(Item::Block(body));
    let refusal = write(&document, Options::new()).unwrap_err();
    let path = refusal.path().unwrap();
    assert_eq!(path.to_string(), "footnotes[0][1][2]");
    assert_eq!(document.item_at(path).unwrap().to_string(), "<br>");
    if let Item::Block(body) = &mut document.footnotes[0] {
        body.pop();
    }
    let refusal = write(&document, Options::new().links(true)).unwrap_err();
    let path = refusal.path().unwrap();
    assert_eq!(
        (refusal.span(), path.to_string()),
        (4, "footnotes[0][1][1]".into())
    );
    assert_eq!(document.item_at(path).unwrap().to_string(), "<a>");
    let spelled = serde_json::to_value(path).unwrap();
    assert_eq!(spelled, serde_json::json!(["footnotes", 0, 1, 1]));
    assert_eq!(&serde_json::from_value::<ItemPath>(spelled).unwrap(), path);
    let root = Element::new("p").child("a").child(Element::new("P Q"));
    let refusal = write_tree(&root, false).unwrap_err();
    let path = refusal.path().unwrap();
    assert_eq!(
        (root.item_at(path), path.to_string()),
        (Some(&root.body[1]), "[3][1]".into())
    );
    let refusal = write_tree(&Element::new("P Q"), false).unwrap_err();
    assert!(refusal.path().unwrap().steps().is_empty());
    let refusal = write(&Document::new().title("\0"), Options::new()).unwrap_err();
    assert_eq!((refusal.path(), refusal.number()), (None, 11));
}

/// All types that can be turned into items.
#[test]
fn items_are_made_of_all_that_they_may_be() {
    let owned = String::from("b");
    let text = std::borrow::Cow::Borrowed("c");
    let none: Option<Element> = None;
    let mut element = Element::new("p")
        .child("a")
        .child(&owned)
        .child(owned.clone())
        .child(text)
        .child('d')
        .child(none)
        .child(Some("e"))
        .child(vec![Item::Space, Item::Break])
        .child(["f", "g"])
        .child(vec![Some(Element::new("i")), None])
        .children("hi".chars());
    element.extend(vec![Item::Hole]);
    element.extend(["j"]);
    let body: Vec<String> = element.body.iter().map(Item::to_string).collect();
    let wanted = r#""a" "b" "b" "c" "d" "e" a space|a line break|"f" "g" <i> "h" "i" a hole|"j""#;
    assert_eq!(body.join(" "), wanted.replace('|', " "));
    let mut document: Document = ["a", "b"].into_iter().collect();
    document.extend(Some(element));
    assert_eq!(document.items.len(), 3);
    assert_eq!(
        Document::new()
            .item(["a", "b"])
            .footnote(vec!['c', 'd'])
            .footnotes
            .len(),
        2
    );
}

#[test]
fn items_are_shown_in_a_line() {
    let start = |destination| Item::Start {
        location: 3,
        destination,
        label: None,
    };
    for (item, line) in [
        (Item::from("a\n\"b\""), r#""a\n\"b\"""#),
        (
            Element::new("p")
                .attr("id", "a")
                .attr("x", "")
                .child("b")
                .into(),
            r#"<p id="a" x="">"#,
        ),
        (Item::Block(vec![Item::Space]), "a block"),
        (Item::Box(vec![]), "a box"),
        (start(None), "the start of location 3"),
        (start(Some(7)), "the start of location 3, which leads to 7"),
        (Item::End(3), "the end of location 3"),
    ] {
        assert_eq!(item.to_string(), line);
    }
}

/// Values that are read from JSON are spelled as they were, and input that the library refuses to
/// read is not read here.
#[test]
fn documents_and_items_are_read_of_json() {
    let mut seen = (0, 0);
    for row in rows() {
        let bad = matches!(row.wanted, Outcome::BadInput(..));
        let json = row.input.as_slice();
        if row.kind == Some(Kind::Items)
            && bad
            && write_document_json(&document_around(json), row.options).is_ok()
        {
            continue; // (a document may have other items too)
        }
        let read = match row.kind {
            Some(Kind::Tree) => serde_json::from_slice(json).map(|root: Element| {
                let given: Value = serde_json::from_slice(json).unwrap();
                let same = serde_json::to_value(&root).unwrap() == given;
                assert!(!same || outcome(&write_tree(&root, row.options.pretty)) == row.wanted);
            }),
            Some(_) => serde_json::from_slice(json).map(|items: Vec<Item>| {
                let deepest = row.input.ends_with(&DEEPEST);
                let document = items.into_iter().collect();
                assert!(deepest || outcome(&write(&document, row.options)) == row.wanted);
            }),
            None => serde_json::from_slice(json).map(|document: Document| {
                assert_eq!(outcome(&write(&document, row.options)), row.wanted);
            }),
        };
        // (blocks and spaces, which a tree may not have, are items; an empty list of css is none)
        let is_tree = row.kind == Some(Kind::Tree);
        assert!(
            read.is_err() == bad || is_tree && bad,
            "{}",
            String::from_utf8_lossy(json)
        );
        seen = (
            seen.0 + usize::from(read.is_ok()),
            seen.1 + usize::from(read.is_err()),
        );
    }
    assert!(seen.0 > 800 && seen.1 > 80, "{seen:?}");
    for wrong in [
        r#"{"title":null}"#,
        r#"{"region":"AT"}"#,
        r#"{"color":"red"}"#,
        r#"{"items":[["frame"]]}"#,
    ] {
        assert!(serde_json::from_str::<Document>(wrong).is_err(), "{wrong}");
    }
}

#[test]
fn documents_have_places_by_name_css_roles_and_a_head() {
    let document = Document::new()
        .head(["h".into(), Item::from(Element::new("meta"))])
        .item(Item::Link("a b".into()))
        .item(Element::new("a").css("top", "0"))
        .item(Item::with_role(
            "note",
            Item::Block(vec![Item::Place("a b".into()), "x".into()]),
        ));
    let text = write(&document, Options::new().links(true)).unwrap();
    assert!(text.contains("initial-scale=1\">h<meta></head>"), "{text}");
    let body = r##"<a href="#a%20b" style="top: 0"></a><div><span id="a b">x</span></div>"##;
    assert!(text.contains(body), "{text}");
    let json = serde_json::to_string(&document).unwrap();
    assert_eq!(serde_json::from_str::<Document>(&json).unwrap(), document);
    assert_eq!(
        write_document_json(json.as_bytes(), Options::new().links(true)).unwrap(),
        text
    );
}

#[test]
fn dead_links_to_names_have_them() {
    let link = Item::Role {
        role: None,
        item: Box::new(Element::new("a").into()),
    };
    let document = Document::new()
        .item(Item::Place("b".into()))
        .item("c")
        .item(Item::Link("a".into()))
        .item(link);
    let dead = match write(&document, Options::new().links(true)) {
        Err(Refusal::DeadLinks(dead)) => dead,
        other => panic!("{other:?}"),
    };
    assert_eq!(dead.links.len(), 1);
    let link = &dead.links[0];
    assert_eq!((link.destination, link.name.as_deref()), (2, Some("a")));
    assert_eq!(
        link.to_string(),
        "items[3][2]: a link to \"a\" leads nowhere"
    );
    assert_eq!(
        document.item_at(&link.path),
        Some(&Element::new("a").into())
    );
}

#[test]
fn names_beside_numbers_are_bad_input() {
    let end = Document::new()
        .item(Item::Place("a".into()))
        .item(Item::End(1));
    let refusal = write(&end, Options::new()).unwrap_err();
    assert_eq!(refusal.to_string(), "bad input at 2, items[1]");
    let json = serde_json::to_vec(&end).unwrap();
    let refusal = write_document_json(&json, Options::new()).unwrap_err();
    assert_eq!(refusal.to_string(), "bad input at 2, items[1]");
}

/// Returns that many nested elements. The innermost has no body.
fn nested(count: usize) -> Element {
    (1..count).fold(Element::new("b"), |inner, _| Element::new("b").child(inner))
}

/// Such items are built, refused and dropped on a stack of 256 KB.
#[test]
fn items_of_any_depth_are_refused_or_written() {
    let small = thread::Builder::new().stack_size(256 << 10);
    let all = || {
        assert!(write_tree(&nested(63), false).is_ok());
        for count in [64, 65, 2_000, 100_000] {
            let root = nested(count);
            let refusal = write_tree(&root, false).unwrap_err();
            assert_eq!(refusal.words(), "bad input");
            // The path leads to the element whose body would be deeper than JSON is read.
            let path = refusal.path().unwrap();
            assert_eq!(
                (path.steps().len(), &path.steps()[..2]),
                (126, [Step::Index(3), Step::Index(0)].as_slice())
            );
            assert!(root.item_at(path).is_some());
            let document = Document::new().item(root);
            let refusal = write(&document, Options::new().limit(10_000)).unwrap_err();
            assert_eq!((refusal.words(), refusal.span()), ("bad input", 0));
            let path = refusal.path().unwrap();
            assert!(document.item_at(path).is_some());
            assert!(refusal
                .to_string()
                .starts_with("bad input at items[0][3][0]"));
        }
        for around in [Item::Block, Item::Box] {
            let block = (0..100_000).fold(Item::Hole, |inner, _| around(vec![inner]));
            let document = Document::new().footnote(block);
            assert!(serde_json::to_vec(&document).is_err());
        }
    };
    small.spawn(all).unwrap().join().unwrap();
}

#[test]
fn a_tree_with_a_block_is_bad_input() {
    let tree = Element::new("p").child(Item::Block(vec![]));
    assert_eq!(write_tree(&tree, true).unwrap_err().span(), 2);
}

/// Returns a place in the first line, with only ASCII before it.
fn first_line(offset: u64) -> Place {
    Place {
        offset,
        line: 1,
        column: offset as usize + 1,
    }
}

#[test]
fn findings_have_paths_names_and_places() {
    let page = r##"<!DOCTYPE html><p id="a"><a href="#b%20c&quot;">x</a><b id="a"></b><b id="a">y</b></p>"##;
    let findings = check(page, 50).unwrap();
    let dead = |path: &[usize], fragment: &str, place| (path.to_vec(), fragment.to_owned(), place);
    assert_eq!(
        dead_fragments(&findings),
        [dead(&[1, 0, 0], "b%20c\"", first_line(25))]
    );
    let repeated: Vec<_> = findings.repeated_ids.iter().collect();
    for (found, (index, offset)) in repeated.iter().zip([(1, 53), (2, 67)]) {
        assert_eq!((found.id.as_str(), found.place), ("a", first_line(offset)));
        assert_eq!(found.path, [1, 0, index]);
    }
    assert!(!findings.is_empty() && repeated.len() == 2);
    let lines = "1:26: \"#b%20c\"\" leads nowhere\n\
                 1:54: an element before has the id \"a\"\n\
                 1:68: an element before has the id \"a\"";
    assert_eq!(findings.to_string(), lines);
    let spelled = serde_json::to_string(&findings).unwrap();
    let start = r#"{"dead_fragments":[{"path":[1,0,0],"fragment":"b%20c\"","place":{"offset":25,"line":1,"column":26}}],"#;
    assert!(spelled.starts_with(start), "{spelled}");
    assert_eq!(
        serde_json::from_str::<Findings>(&spelled).unwrap(),
        findings
    );
}

/// A page without a document type keeps a table in a p, but the text of its tree would not.
#[test]
fn misnested_nodes_have_rules_and_words() {
    let findings = check("<p><table></table><b><table></table></b>", 50).unwrap();
    assert!(!findings.is_empty() && findings.dead_fragments.is_empty());
    let found: Vec<_> = findings.misnested.iter().collect();
    let places = [(vec![1, 0, 0], 3), (vec![1, 0, 1, 0], 21)];
    assert_eq!(found.len(), places.len());
    for (node, (path, offset)) in found.iter().zip(places) {
        assert_eq!((&node.path, node.place), (&path, first_line(offset)));
        assert_eq!(node.rule, "ClosesParagraph");
    }
    let lines = "1:4: a node closes the p that it stands in\n\
                 1:22: a node closes the p that it stands in";
    assert_eq!(findings.to_string(), lines);
    let spelled = serde_json::to_string(&findings).unwrap();
    assert_eq!(
        serde_json::from_str::<Findings>(&spelled).unwrap(),
        findings
    );
    let earlier = r#"{"dead_fragments":[],"repeated_ids":[]}"#;
    let read: Findings = serde_json::from_str(earlier).unwrap();
    assert_eq!(read, Findings::default());
}

#[test]
fn links_returns_ids_names_and_links() {
    let page = r#"<html id=r><p id="">é<a id=s name=t href="b.html#c">x</a><map><area href></map>"#;
    let listed = links(page, 50).unwrap();
    let lines = "1:1: the id \"r\"\n1:22: the id \"s\"\n1:22: the name \"t\"\n\
                 1:22: a link to \"b.html#c\"\n1:63: a link to \"\"";
    assert_eq!(listed.to_string(), lines);
    let paths: Vec<_> = listed.links.iter().map(|it| it.path.as_slice()).collect();
    assert_eq!(paths, [&[1, 0, 1][..], &[1, 0, 2, 0]]);
    assert!(listed.ids[0].path.is_empty());
    assert_eq!(listed.links[0].place.offset, 22);
    let spelled = serde_json::to_string(&listed).unwrap();
    assert_eq!(serde_json::from_str::<PageLinks>(&spelled).unwrap(), listed);
    assert_eq!(links("", 50), Ok(PageLinks::default()));
    let refusal = links("<p><b>a", 3).unwrap_err();
    assert_eq!(refusal, check("<p><b>a", 3).unwrap_err());
    assert!(matches!(links("", 0), Err(Refusal::BadInput { .. })));
}

/// A page is a text: encodings that it declares are passed over, and places are those in the text.
#[test]
fn labels_in_texts_count_for_nothing() {
    for (label, length) in [("latin1", 21), ("big5", 19), ("utf-16", 21)] {
        let page = format!("<meta charset={label}><p id=\"é\"></p><a href=#é>x</a><a href=#no>");
        let found = dead_fragments(&check(&page, 50).unwrap());
        assert_eq!(found.len(), 1, "{page}");
        let (fragment, place) = (found[0].1.as_str(), found[0].2);
        assert_eq!(
            (fragment, place.offset, place.column),
            ("no", length + 32, length as usize + 31)
        );
        let listed = links(&page, 50).unwrap();
        assert_eq!(
            (listed.ids[0].id.as_str(), listed.ids[0].place.offset),
            ("é", length)
        );
        let marked = check(&format!("\u{feff}{page}"), 50).unwrap();
        assert_eq!(dead_fragments(&marked)[0].2.offset, length + 35);
    }
    let refusal = check("<meta charset=big5><p><b>a", 3).unwrap_err();
    assert_eq!((refusal.number(), refusal.span()), (8, 22));
}

/// Returns the path, the fragment and the place of each link that leads nowhere.
fn dead_fragments(findings: &Findings) -> Vec<(Vec<usize>, String, Place)> {
    let dead = findings.dead_fragments.iter();
    dead.map(|it| (it.path.clone(), it.fragment.clone(), it.place))
        .collect()
}

/// Tags are left out, lines end with CR LF, and a multi-byte character stands before the link.
#[test]
fn pages_are_read_as_browsers_read_them() {
    let page = "\u{feff}<TITLE>Pie</TITLE>\r\n<UL><LI>Salt\r\n<LI>ä & <A HREF=#gone>x</A>";
    let place = Place {
        offset: 46,
        line: 3,
        column: 9,
    };
    let findings = check(page, 50).unwrap();
    assert_eq!(
        dead_fragments(&findings),
        [(vec![1, 0, 1, 1], "gone".into(), place)]
    );
    assert_eq!(findings.repeated_ids, []);
    for page in ["", "<", "<!DOCTYPE html>\n<p>é & x</b>", "<a href=#>"] {
        assert_eq!(check(page, 50), Ok(Findings::default()), "{page}");
    }
}

#[test]
fn links_that_are_given_lead() {
    let start = |location, destination| Item::Start {
        location,
        destination,
        label: None,
    };
    let document = Document::new()
        .item(start(1, Some(7)))
        .item(Element::new("a").child("b"))
        .item(Item::End(1))
        .item(start(7, None))
        .item(Element::new("h2"))
        .item(Item::End(7));
    let page = write(&document, Options::new().links(true)).unwrap();
    assert_eq!(check(&page, 50), Ok(Findings::default()));
}

#[test]
fn links_that_lead_nowhere_are_reported_with_the_text() {
    let start = |location, destination| Item::Start {
        location,
        destination,
        label: None,
    };
    let document = Document::new()
        .item(start(1, Some(7)))
        .item(Element::new("a").child("b"))
        .footnote(start(2, Some(u64::MAX)))
        .footnote(Element::new("a"));
    let written = |links| write(&document, Options::new().links(links));
    let refusal = written(true).unwrap_err();
    let wanted = Outcome::DeadLinks(written(false).unwrap(), vec![(2, 7), (5, u64::MAX)]);
    assert_eq!(outcome(&Err(refusal.clone())), wanted);
    let dead = match &refusal {
        Refusal::DeadLinks(dead) => dead,
        other => panic!("{other}"),
    };
    let lines: Vec<_> = dead.links.iter().map(|link| link.to_string()).collect();
    assert_eq!(lines[0], "items[1]: a link to location 7 leads nowhere");
    assert!(lines[1].starts_with("footnotes[1]: "));
    let spelled = serde_json::to_string(&dead.links).unwrap();
    assert!(spelled.starts_with(r#"[{"span":2,"destination":7,"path":["items",1]},"#));
    assert_eq!((refusal.number(), refusal.span()), (0, 2));
    assert_eq!(refusal.words(), "links lead nowhere");
    let message = "links lead nowhere (2, the first at 2)";
    assert_eq!(refusal.to_string(), message);
}

#[test]
fn pages_that_are_not_read_are_reported() {
    let place_of = |page, limit| match check(page, limit) {
        Err(Refusal::PageRefused { number, place, .. }) => {
            (number, place.offset, place.line, place.column)
        }
        other => panic!("{other:?}"),
    };
    let page = "<!DOCTYPE html><p>é\n<b></b></p>";
    assert_eq!(place_of(page, 3), (8, 21, 2, 1));
    let deep = check(page, 3).unwrap_err();
    assert_eq!(check(page, 4), Ok(Findings::default()));
    assert_eq!((deep.number(), deep.span()), (8, 21));
    assert_eq!(
        deep.words(),
        "a body, or an element of a page, stands deeper than the limit"
    );
    assert_eq!(
        deep.to_string(),
        format!("{} (refusal 8 at 2:1)", deep.words())
    );
    for limit in [0, 1_001] {
        assert_eq!(check(page, limit), Err(Refusal::BAD_INPUT));
    }
    let many: String = (0..257).map(|count| format!(" a{count}")).collect();
    let page = format!("<head></head>\r<template{many}>");
    assert_eq!(place_of(page.as_str(), 50), (28, 14, 2, 1));
}

/// The library reports only the part of a path that differs from the one before.
#[test]
fn findings_deep_in_their_page_have_whole_paths() {
    let (deep, link) = (400, "<a href=\"#x\" id=\"i\"></a>");
    let mut page = format!("<div>{link}").repeat(deep);
    page.push_str(&link.repeat(1000));
    page.push_str(&format!("{link}</div>").repeat(deep));
    // (the path of a div is 1 for the body and 0 for the first, then 1 behind each link)
    let at = |depth: usize, last: usize| [vec![1, 0], vec![1; depth], vec![last]].concat();
    let down = (0..deep).map(|depth| at(depth, 0));
    let there = (1..=1000).map(|last| at(deep - 1, last));
    let up = (0..deep)
        .rev()
        .map(|depth| at(depth, if depth == deep - 1 { 1001 } else { 2 }));
    let paths: Vec<_> = down.chain(there).chain(up).collect();
    let offsets: Vec<_> = page.match_indices("<a").map(|(at, _)| at as u64).collect();
    let findings = check(&page, 1000).unwrap();
    let (dead, repeated) = (findings.dead_fragments, findings.repeated_ids);
    let found: Vec<_> = dead.iter().map(|it| it.place.offset).collect();
    assert_eq!(found, offsets);
    let found: Vec<_> = dead.into_iter().map(|it| it.path).collect();
    assert_eq!(found, paths);
    let found: Vec<_> = repeated.into_iter().map(|it| it.path).collect();
    assert_eq!(found, paths[1..]);
}

/// Pretty text of nested elements is far longer than its JSON, so the first buffer is too short.
#[test]
fn a_buffer_that_is_too_short_is_made_longer() {
    let mut element = Element::new("ul");
    for _ in 0..400 {
        element = element.child(Element::new("li"));
    }
    for _ in 0..55 {
        element = Element::new("div").child(element);
    }
    let text = write_tree(&element, true).unwrap();
    let json = serde_json::to_vec(&element).unwrap();
    assert!(
        text.len() > 4 * json.len() + 1024,
        "{} of {}",
        text.len(),
        json.len()
    );
    assert!(text.ends_with("\n</div>\n"));
}

#[test]
fn eight_threads_agree() {
    let rows = rows();
    thread::scope(|scope| {
        for _ in 0..8 {
            scope.spawn(|| {
                for row in &rows {
                    assert_eq!(outcome(&row.written()), row.wanted);
                }
            });
        }
    });
}

#[test]
fn ten_megabytes_are_written() {
    let text = "A paragraph of a long document, with a < b and an & in it.";
    let paragraph = Element::new("p").attr("class", "long").child(text);
    let mut document = Document::new();
    document.items = vec![paragraph.into(); 100_000];
    assert!(serde_json::to_vec(&document).unwrap().len() > 9_000_000);
    let written = write(&document, Options::new().pretty(true)).unwrap();
    assert_eq!(
        written
            .matches("with a &lt; b and an &amp; in it.</p>\n")
            .count(),
        100_000
    );
}

/// The deepest page that may be checked, on a stack of 256 KB, at every limit that is tried. It has
/// html, body, a div with a link at each other level, and only a link at the last level.
#[test]
fn the_deepest_page_on_a_small_stack() {
    let checks = || {
        for limit in [4, 50, 500, 999, 1_000] {
            let deep = limit as usize - 3;
            let page = "<div id=\"a\"><a href=\"#b\"></a>".repeat(deep);
            let findings = check(&page, limit).unwrap();
            assert_eq!(findings.dead_fragments.len(), deep);
            assert_eq!(findings.repeated_ids.len(), deep - 1);
            let listed = links(&page, limit).unwrap();
            assert_eq!((listed.ids.len(), listed.links.len()), (deep, deep));
            assert_eq!(check(&page, limit - 1).unwrap_err().number(), 8);
        }
    };
    let thread = std::thread::Builder::new().stack_size(256 << 10);
    thread.spawn(checks).unwrap().join().unwrap();
}
