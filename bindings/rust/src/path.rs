//! Paths of items in JSON, found by the number of their list, or as the first value that does not
//! have the form.

use crate::{Document, Element, Item};
use serde::{Deserialize, Serialize};
use serde_json::Value;
use std::collections::{BTreeMap, HashSet};
use std::fmt;
use std::ops::ControlFlow::{self, Break, Continue};

/// The greatest number of nested lists and objects in JSON.
const DEEPEST: usize = 127;

/// A step of a path to a value in JSON.
#[derive(Clone, Debug, PartialEq, Eq, Hash, Serialize, Deserialize)]
#[serde(untagged)]
pub enum Step {
    /// The index of a value in a list.
    Index(usize),
    /// The name of a member of an object.
    Name(String),
}

/// The path of a value in JSON, from the outside in. Mostly the value is an item.
///
/// An element's body is the last value of its list: value 3, or value 4 behind css. The body of a
/// block or a box is value 1, and the item with a role is value 2. So `items[2][3][0]` is the first
/// child of an element, which is the third item. For a [`Document`] or an [`Element`] it is the
/// path in the JSON that spells it, and their `item_at` follows it.
#[derive(Clone, Debug, Default, PartialEq, Eq, Hash, Serialize, Deserialize)]
#[serde(transparent)]
pub struct ItemPath(Vec<Step>);

impl ItemPath {
    /// Returns its steps. There are none for the root of a tree.
    pub fn steps(&self) -> &[Step] {
        &self.0
    }

    /// Returns the one of these items to which a path that
    /// [`write_fragment`](crate::write_fragment) reported leads.
    ///
    /// ```
    /// use typst_html_proved::{write_fragment, Element, Item, Level};
    ///
    /// let items: [Item; 2] = ["a".into(), Element::new("br").child("no").into()];
    /// let refusal = write_fragment(&items, Level::Block, 50).unwrap_err();
    /// let item = refusal.path().and_then(|path| path.item_in(&items));
    /// assert_eq!(item.unwrap().to_string(), "<br>");
    /// ```
    pub fn item_in<'a>(&self, items: &'a [Item]) -> Option<&'a Item> {
        item_in(items, self.steps())
    }

    fn of(name: &str) -> ItemPath {
        ItemPath(vec![Step::Name(name.to_owned())])
    }
}

impl fmt::Display for ItemPath {
    /// Writes it as most languages do: `items[2][3][0]`.
    fn fmt(&self, f: &mut fmt::Formatter<'_>) -> fmt::Result {
        self.0.iter().try_for_each(|step| match step {
            Step::Index(at) => write!(f, "[{at}]"),
            Step::Name(name) => f.write_str(name),
        })
    }
}

impl Document {
    /// Returns the item, the footnote or the node of the head to which a path that
    /// [`write`](crate::write) reported leads.
    ///
    /// ```
    /// use typst_html_proved::{write, Document, Element, Options};
    ///
    /// let document = Document::new().item("a").item(Element::new("br").child("no"));
    /// let refusal = write(&document, Options::new()).unwrap_err();
    /// let item = refusal.path().and_then(|path| document.item_at(path));
    /// assert_eq!(item.unwrap().to_string(), "<br>");
    /// ```
    pub fn item_at(&self, path: &ItemPath) -> Option<&Item> {
        match path.steps() {
            [Step::Name(name), steps @ ..] => {
                let (_, items) = lists(self).into_iter().find(|(it, _)| it == name)?;
                item_in(items, steps)
            }
            _ => None,
        }
    }
}

impl Element {
    /// Returns the item in it to which a path that [`write_tree`](crate::write_tree) reported
    /// leads. Returns `None` if that path has no step, and so leads to the element itself.
    pub fn item_at(&self, path: &ItemPath) -> Option<&Item> {
        match path.steps() {
            [Step::Index(field), steps @ ..] if *field == body_field(self) => {
                item_in(&self.body, steps)
            }
            _ => None,
        }
    }
}

/// The members of a document that hold items or nodes, in the order in which they are read.
const LISTS: [&str; 3] = ["items", "footnotes", "head"];

fn lists(document: &Document) -> [(&'static str, &[Item]); 3] {
    let [items, footnotes, head] = LISTS;
    [
        (items, &document.items),
        (footnotes, &document.footnotes),
        (head, &document.head),
    ]
}

/// Returns the index of an element's body in its list.
fn body_field(element: &Element) -> usize {
    3 + usize::from(!element.css.is_empty())
}

/// Returns the item to which these steps lead.
fn item_in<'a>(items: &'a [Item], steps: &[Step]) -> Option<&'a Item> {
    match steps {
        [Step::Index(at), more @ ..] => part_in(items.get(*at)?, more),
        _ => None,
    }
}

/// Returns the item to which these steps lead from an item.
fn part_in<'a>(item: &'a Item, steps: &[Step]) -> Option<&'a Item> {
    match (steps, item.inside()) {
        ([], _) => Some(item),
        ([Step::Index(field), more @ ..], Some((at, Inside::Body(body)))) if *field == at => {
            item_in(body, more)
        }
        ([Step::Index(field), more @ ..], Some((at, Inside::One(part)))) if *field == at => {
            part_in(part, more)
        }
        _ => None,
    }
}

/// The content of an item.
enum Inside<'a, P> {
    /// A list of items.
    Body(&'a [P]),
    /// One item.
    One(&'a P),
}

/// A value in the position of an item.
trait Part: Sized {
    /// Returns whether a list spells it.
    fn is_list(&self) -> bool;

    /// Returns its content, and the index of that in its list.
    fn inside(&self) -> Option<(usize, Inside<'_, Self>)>;

    /// Returns the name of the place, if it is a place or a link with a name.
    fn name(&self) -> Option<&str>;
}

impl Part for Item {
    fn is_list(&self) -> bool {
        true
    }

    fn inside(&self) -> Option<(usize, Inside<'_, Item>)> {
        match self {
            Item::Element(element) => Some((body_field(element), Inside::Body(&element.body))),
            Item::Block(body) | Item::Box(body) => Some((1, Inside::Body(body))),
            Item::Role { item, .. } => Some((2, Inside::One(item))),
            _ => None,
        }
    }

    fn name(&self) -> Option<&str> {
        match self {
            Item::Place(name) | Item::Link(name) => Some(name),
            _ => None,
        }
    }
}

/// Returns the number of nested lists in an item, apart from those in its body.
fn levels(item: &Item) -> usize {
    match item {
        Item::Element(element) if !(element.attrs.is_empty() && element.css.is_empty()) => 3,
        Item::Element(_) | Item::Block(_) | Item::Box(_) => 2,
        _ => 1,
    }
}

impl Part for Value {
    fn is_list(&self) -> bool {
        self.is_array()
    }

    fn inside(&self) -> Option<(usize, Inside<'_, Value>)> {
        match self.as_array()?.as_slice() {
            [kind, _, _, Value::Array(body)] if kind == "el" => Some((3, Inside::Body(body))),
            [kind, _, _, _, Value::Array(body)] if kind == "el" => Some((4, Inside::Body(body))),
            [kind, Value::Array(body)] if kind == "block" || kind == "box" => {
                Some((1, Inside::Body(body)))
            }
            [kind, _, item] if kind == "role" => Some((2, Inside::One(item))),
            _ => None,
        }
    }

    fn name(&self) -> Option<&str> {
        match self.as_array()?.as_slice() {
            [kind, name] if kind == "place" || kind == "link" => name.as_str(),
            _ => None,
        }
    }
}

/// A walk through items in the order of their opening brackets.
struct Walk<F> {
    path: Vec<Step>,
    number: u64,
    see: F,
}

impl<F> Walk<F> {
    fn new(see: F) -> Walk<F> {
        Walk {
            path: Vec::new(),
            number: 0,
            see,
        }
    }

    /// Visits a part and its content. Passes each with its path and the number of its list. A part
    /// that is no list has the number of the last list before it.
    fn part<P: Part>(&mut self, part: &P) -> ControlFlow<()>
    where
        F: FnMut(&P, &[Step], u64) -> ControlFlow<()>,
    {
        self.number += u64::from(part.is_list());
        (self.see)(part, &self.path, self.number)?;
        match part.inside() {
            Some((field, Inside::Body(body))) => {
                self.behind(Step::Index(field), |walk| walk.parts(body))
            }
            Some((field, Inside::One(part))) => {
                self.behind(Step::Index(field), |walk| walk.part(part))
            }
            None => Continue(()),
        }
    }

    fn parts<P: Part>(&mut self, parts: &[P]) -> ControlFlow<()>
    where
        F: FnMut(&P, &[Step], u64) -> ControlFlow<()>,
    {
        let mut each = parts.iter().enumerate();
        each.try_for_each(|(at, part)| self.behind(Step::Index(at), |walk| walk.part(part)))
    }

    /// Continues the walk with that step at the end of the path.
    fn behind(
        &mut self,
        step: Step,
        go_on: impl FnOnce(&mut Walk<F>) -> ControlFlow<()>,
    ) -> ControlFlow<()> {
        self.path.push(step);
        go_on(self)?;
        self.path.pop();
        Continue(())
    }

    fn member<P: Part>(&mut self, name: &str, parts: &[P]) -> ControlFlow<()>
    where
        F: FnMut(&P, &[Step], u64) -> ControlFlow<()>,
    {
        self.behind(Step::Name(name.to_owned()), |walk| walk.parts(parts))
    }
}

/// The form of the caller's JSON.
#[derive(Clone, Copy, PartialEq)]
pub(crate) enum Form {
    Tree,
    Items,
    Document,
    Fragment,
}

/// The caller's input, in which paths are found.
#[derive(Clone, Copy)]
pub(crate) enum Given<'a> {
    Document(&'a Document),
    Tree(&'a Element),
    Fragment(&'a [Item]),
    Json(Form, &'a [u8]),
}

impl Given<'_> {
    /// Returns the paths of the items whose lists have these numbers.
    pub(crate) fn paths(self, numbers: impl IntoIterator<Item = u64>) -> BTreeMap<u64, ItemPath> {
        let mut wanted: Vec<u64> = numbers.into_iter().filter(|number| *number > 0).collect();
        wanted.sort_unstable_by(|one, other| other.cmp(one));
        wanted.dedup();
        let mut found = BTreeMap::new();
        if wanted.is_empty() {
            return found;
        }
        let mut note = |path: &[Step], number: u64| {
            if wanted.last() == Some(&number) {
                found.insert(number, ItemPath(path.to_vec()));
                wanted.pop();
            }
            if wanted.is_empty() {
                Break(())
            } else {
                Continue(())
            }
        };
        let _ended = match self {
            Given::Json(form, json) => {
                let value = serde_json::from_slice(json).unwrap_or_default();
                spots(form, &value, |_, path, number| note(path, number))
            }
            Given::Document(document) => {
                items_of(document, |_: &Item, path, number| note(path, number))
            }
            Given::Tree(root) => {
                let _root = note(&[], 1);
                nodes_of(root, |_: &Item, path, number| note(path, number))
            }
            Given::Fragment(items) => {
                Walk::new(|_: &Item, path: &[Step], number| note(path, number)).parts(items)
            }
        };
        found
    }

    /// Returns the names of places, in the order of their locations, which are counted from 1.
    pub(crate) fn names(self) -> Vec<String> {
        let mut found = Vec::new();
        let mut known = HashSet::new();
        let mut note = |name: Option<&str>, path: &[Step]| {
            if let Some(name) = name.filter(|_| !is_in_head(path)) {
                if known.insert(name.to_owned()) {
                    found.push(name.to_owned());
                }
            }
            Continue(())
        };
        let _ended = match self {
            Given::Document(document) => {
                items_of(document, |item: &Item, path, _| note(item.name(), path))
            }
            Given::Json(form, json) => {
                let value = serde_json::from_slice(json).unwrap_or_default();
                spots(form, &value, |value, path, _| note(value.name(), path))
            }
            Given::Tree(_) | Given::Fragment(_) => Continue(()),
        };
        found
    }

    /// Returns the path of the first value that does not have the form: the last item whose list is
    /// opened, or the value behind it that is no list. (Items of this crate always have the form,
    /// except those that a tree may not hold.)
    pub(crate) fn left(self, number: u64) -> Option<ItemPath> {
        match self {
            Given::Json(form, json) => left_in(form, &serde_json::from_slice(json).ok()?),
            _ => self.paths([number]).remove(&number),
        }
    }

    /// Returns the path of the first item that is deeper than JSON is read, unless the input is
    /// JSON.
    pub(crate) fn deepest(self) -> Option<ItemPath> {
        let mut found = None;
        let see = |item: &Item, path: &[Step], _| {
            if path.len() + levels(item) <= DEEPEST {
                return Continue(());
            }
            found = Some(ItemPath(path.to_vec()));
            Break(())
        };
        let _ended = match self {
            Given::Document(document) => items_of(document, see),
            Given::Tree(root) => nodes_of(root, see),
            Given::Fragment(items) => Walk::new(see).parts(items),
            Given::Json(..) => Continue(()),
        };
        found
    }
}

/// Visits all items of a document.
fn items_of<F>(document: &Document, see: F) -> ControlFlow<()>
where
    F: FnMut(&Item, &[Step], u64) -> ControlFlow<()>,
{
    let mut walk = Walk::new(see);
    let mut each = lists(document).into_iter();
    each.try_for_each(|(name, items)| walk.member(name, items))
}

/// Returns whether a path leads to a node of a document's head.
fn is_in_head(path: &[Step]) -> bool {
    matches!(path, [Step::Name(name), ..] if name == "head")
}

/// Visits all nodes below the root of a tree. The root's own list is the first.
fn nodes_of<F>(root: &Element, see: F) -> ControlFlow<()>
where
    F: FnMut(&Item, &[Step], u64) -> ControlFlow<()>,
{
    let mut walk = Walk::new(see);
    walk.number = 1;
    walk.behind(Step::Index(body_field(root)), |walk| walk.parts(&root.body))
}

/// Visits each value of JSON in the position of an item, and each that is no list in the position
/// of a list of items.
fn spots<F>(form: Form, value: &Value, see: F) -> ControlFlow<()>
where
    F: FnMut(&Value, &[Step], u64) -> ControlFlow<()>,
{
    let mut walk = Walk::new(see);
    let listed = |walk: &mut Walk<F>, value: &Value| match value {
        Value::Array(parts) => walk.parts(parts),
        other => walk.part(other),
    };
    match form {
        Form::Tree => walk.part(value),
        Form::Items | Form::Fragment => listed(&mut walk, value),
        Form::Document => {
            for name in LISTS {
                if let Some(value) = value.get(name) {
                    walk.behind(Step::Name(name.to_owned()), |walk| listed(walk, value))?;
                }
            }
            Continue(())
        }
    }
}

/// Returns the path of the first value that does not have the form.
fn left_in(form: Form, value: &Value) -> Option<ItemPath> {
    if form == Form::Document {
        if let Some(path) = wrong_member(value) {
            return Some(path);
        }
    }
    let mut found = None;
    let mut tagged = None;
    let _ended = spots(form, value, |value, path, _| {
        let fits = match form {
            Form::Tree => is_node(value, path.is_empty()),
            Form::Items => is_item(value),
            Form::Document if is_in_head(path) => is_node(value, false),
            Form::Document | Form::Fragment => is_item_of_document(value),
        };
        // The tags of an input have names or numbers, never both.
        if fits && is_named(value).map_or(true, |named| *tagged.get_or_insert(named) == named) {
            return Continue(());
        }
        found = Some(ItemPath(path.to_vec()));
        Break(())
    });
    found
}

/// Returns the path of the wrong member of a document whose name comes first, or of the document if
/// it is no object.
fn wrong_member(document: &Value) -> Option<ItemPath> {
    let members = match document.as_object() {
        None => return Some(ItemPath::default()),
        Some(members) => members,
    };
    let alone = |name: &str| name == "region" && !members.contains_key("lang");
    let mut wrong: Vec<&String> = members
        .iter()
        .filter(|(name, value)| !is_member(name, value) || alone(name))
        .map(|(name, _)| name)
        .collect();
    wrong.sort();
    wrong.first().map(|name| ItemPath::of(name))
}

/// Returns whether a document may have that member. Lists of items and nodes are checked later.
fn is_member(name: &str, value: &Value) -> bool {
    match name {
        "title" | "description" | "lang" | "region" => value.is_string(),
        "authors" | "keywords" => {
            let texts = value.as_array();
            texts.map_or(false, |texts| texts.iter().all(Value::is_string))
        }
        _ => LISTS.contains(&name),
    }
}

/// Returns whether a tag has a name, or `None` if the item is no tag.
fn is_named(item: &Value) -> Option<bool> {
    match item.get(0)?.as_str()? {
        "place" | "link" => Some(true),
        "start" | "end" => Some(false),
        _ => None,
    }
}

/// Returns whether a value is a pair of a name and a value.
fn is_pair(pair: &Value) -> bool {
    match pair.as_array().map(Vec::as_slice) {
        Some([name, value]) => name.is_string() && value.is_string(),
        _ => false,
    }
}

/// Returns whether a value is an item of a document, whatever its body holds.
fn is_item_of_document(value: &Value) -> bool {
    let is_text = |value: &Value| value.is_string();
    match value.as_array().map(Vec::as_slice) {
        Some([Value::String(kind), fields @ ..]) => match (kind.as_str(), fields) {
            ("start", [location, destination, label]) => {
                location.is_u64()
                    && (destination.is_u64() || destination.is_null())
                    && is_text(label)
            }
            ("el", [tag, Value::Array(attrs), Value::Array(css), body]) => {
                is_text(tag) && attrs.iter().chain(css).all(is_pair) && body.is_array()
            }
            ("place" | "link", [name]) => is_text(name),
            ("role", [role, _]) => is_text(role) || role.is_null(),
            _ => is_item(value),
        },
        _ => false,
    }
}

/// Returns whether a value is an item in the form of the program, whatever its body holds.
fn is_item(value: &Value) -> bool {
    let (kind, fields) = match value.as_array().map(Vec::as_slice) {
        Some([Value::String(kind), fields @ ..]) => (kind, fields),
        _ => return false,
    };
    match (kind.as_str(), fields) {
        ("text", [text]) => text.is_string(),
        ("space" | "break" | "hole", []) => true,
        ("start", [location]) | ("end", [location]) => location.is_u64(),
        ("start", [location, destination]) => location.is_u64() && destination.is_u64(),
        ("block" | "box", [body]) => body.is_array(),
        ("el", [tag, Value::Array(attrs), body]) => {
            tag.is_string() && attrs.iter().all(is_pair) && body.is_array()
        }
        _ => false,
    }
}

/// Returns whether a value may stand in a tree, at its root or elsewhere.
fn is_node(value: &Value, is_root: bool) -> bool {
    let kind = value.get(0).and_then(Value::as_str).unwrap_or_default();
    is_item(value) && (kind == "el" || !is_root && ["text", "start", "end"].contains(&kind))
}
