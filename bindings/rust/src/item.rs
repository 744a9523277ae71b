//! The content of documents: items and elements.

use std::borrow::Cow;
use std::fmt;
use std::mem;

/// An item of a document or of an element.
///
/// Items nest to any depth. Items that are deeper than JSON is read are refused when they are
/// serialized, and all items are dropped, without more stack. `Clone`, `==` and `Debug` take stack
/// for each level.
#[derive(Clone, Debug, PartialEq, Eq)]
#[non_exhaustive]
pub enum Item {
    /// A text.
    Text(String),
    /// A space, as between two words.
    Space,
    /// A line break.
    Break,
    /// An element.
    Element(Element),
    /// Items in a block of their own.
    Block(Vec<Item>),
    /// Items in a box within a line.
    Box(Vec<Item>),
    /// Something that has no place in HTML and is left out.
    Hole,
    /// The start of a location, which reaches up to its [`Item::End`]. Links to it have it as their
    /// destination.
    Start {
        /// The location.
        location: u64,
        /// The location to which links in this one lead.
        destination: Option<u64>,
        /// The `id` that the element here gets, if links lead to it and it has none.
        label: Option<String>,
    },
    /// The end of a location.
    End(u64),
    /// A mark that makes the next item the place of that name, to which links lead.
    ///
    /// A document has places by name or locations by number, not both.
    ///
    /// ```
    /// use typst_html_proved::{write, Document, Element, Item, Options};
    ///
    /// let document = Document::new()
    ///     .item(Item::Link("moon".into()))
    ///     .item(Element::new("a").child("there"))
    ///     .item(Item::Place("moon".into()))
    ///     .item(Element::new("h2").child("Moon"));
    /// let text = write(&document, Options::new().links(true))?;
    /// assert!(text.contains(r##"<a href="#moon">there</a><h2 id="moon">Moon</h2>"##));
    /// # Ok::<(), typst_html_proved::Refusal>(())
    /// ```
    Place(String),
    /// A mark that makes the next `a` a link to the place of that name, wherever that is.
    Link(String),
    /// An item with a role of its own, or without one.
    Role {
        /// The role. If an item has two around it, the outer one counts.
        role: Option<String>,
        /// The item that has it.
        item: std::boxed::Box<Item>,
    },
}

impl Item {
    /// Creates an item with that role.
    ///
    /// ```
    /// use typst_html_proved::{write, Document, Element, Item, Options};
    ///
    /// let note = Item::with_role("note", Element::new("aside").child("a"));
    /// let text = write(&Document::new().item(note), Options::new())?;
    /// assert!(text.contains(r#"<aside role="note">a</aside>"#));
    /// # Ok::<(), typst_html_proved::Refusal>(())
    /// ```
    pub fn with_role(role: impl Into<String>, item: impl Into<Item>) -> Item {
        Item::Role {
            role: Some(role.into()),
            item: Box::new(item.into()),
        }
    }

    /// Takes the items out of it, and returns them.
    fn take_body(&mut self) -> Vec<Item> {
        match self {
            Item::Element(Element { body, .. }) | Item::Block(body) | Item::Box(body) => {
                mem::take(body)
            }
            Item::Role { item, .. } => vec![mem::replace(&mut **item, Item::Hole)],
            _ => Vec::new(),
        }
    }
}

impl Drop for Item {
    /// Drops the items in it one after the other, without recursion.
    fn drop(&mut self) {
        let mut waiting = self.take_body();
        while let Some(mut item) = waiting.pop() {
            waiting.append(&mut item.take_body());
        }
    }
}

impl fmt::Display for Item {
    /// Writes what it is in a line, without the items in it: `"a < b"`, `<p class="lead">`, `a
    /// block`.
    fn fmt(&self, f: &mut fmt::Formatter<'_>) -> fmt::Result {
        match self {
            Item::Text(text) => write!(f, "{text:?}"),
            Item::Space => f.write_str("a space"),
            Item::Break => f.write_str("a line break"),
            Item::Element(element) => element.fmt(f),
            Item::Block(_) => f.write_str("a block"),
            Item::Box(_) => f.write_str("a box"),
            Item::Hole => f.write_str("a hole"),
            Item::Start {
                location,
                destination: None,
                ..
            } => write!(f, "the start of location {location}"),
            Item::Start {
                location,
                destination: Some(destination),
                ..
            } => write!(
                f,
                "the start of location {location}, which leads to {destination}"
            ),
            Item::End(location) => write!(f, "the end of location {location}"),
            Item::Place(name) => write!(f, "the place {name:?}"),
            Item::Link(name) => write!(f, "a link to {name:?}"),
            Item::Role { role: None, .. } => f.write_str("an item without a role"),
            Item::Role {
                role: Some(role), ..
            } => write!(f, "an item with the role {role:?}"),
        }
    }
}

impl From<&str> for Item {
    fn from(text: &str) -> Item {
        Item::Text(text.to_owned())
    }
}

impl From<String> for Item {
    fn from(text: String) -> Item {
        Item::Text(text)
    }
}

impl From<&String> for Item {
    fn from(text: &String) -> Item {
        Item::Text(text.clone())
    }
}

impl From<Cow<'_, str>> for Item {
    fn from(text: Cow<'_, str>) -> Item {
        Item::Text(text.into_owned())
    }
}

impl From<char> for Item {
    fn from(text: char) -> Item {
        Item::Text(text.into())
    }
}

impl From<Element> for Item {
    fn from(element: Element) -> Item {
        Item::Element(element)
    }
}

/// Types that can be turned into items: one item, an `Option` of such, or a `Vec` or an array of
/// them.
///
/// ```
/// use typst_html_proved::{write_tree, Element};
///
/// let note: Option<&str> = None;
/// let list = Element::new("ul")
///     .child(vec![Element::new("li").child('a'), Element::new("li").child(["b", "c"])])
///     .child(note);
/// let text = write_tree(&list, false)?;
/// assert_eq!(text, "<!DOCTYPE html><ul><li>a</li><li>bc</li></ul>");
/// # Ok::<(), typst_html_proved::Refusal>(())
/// ```
pub trait IntoItems {
    /// Appends these items to others.
    fn add_to(self, items: &mut Vec<Item>);
}

impl<T: Into<Item>> IntoItems for T {
    fn add_to(self, items: &mut Vec<Item>) {
        items.push(self.into());
    }
}

impl<T: IntoItems> IntoItems for Option<T> {
    fn add_to(self, items: &mut Vec<Item>) {
        self.into_iter().for_each(|given| given.add_to(items));
    }
}

impl<T: IntoItems> IntoItems for Vec<T> {
    fn add_to(self, items: &mut Vec<Item>) {
        items.reserve(self.len());
        self.into_iter().for_each(|given| given.add_to(items));
    }
}

impl<T: IntoItems, const N: usize> IntoItems for [T; N] {
    fn add_to(self, items: &mut Vec<Item>) {
        self.into_iter().for_each(|given| given.add_to(items));
    }
}

/// An element: a tag, attributes, css, and a body.
///
/// ```
/// use typst_html_proved::{write_tree, Element};
///
/// let link = Element::new("a").attr("href", "/").child("Home & garden");
/// let text = write_tree(&Element::new("p").child(link), false)?;
/// assert_eq!(text, r#"<!DOCTYPE html><p><a href="/">Home &amp; garden</a></p>"#);
/// # Ok::<(), typst_html_proved::Refusal>(())
/// ```
#[derive(Clone, Debug, PartialEq, Eq)]
#[non_exhaustive]
pub struct Element {
    /// The tag name.
    pub tag: String,
    /// The names and values of its attributes, in order.
    pub attrs: Vec<(String, String)>,
    /// The css properties, which go into its `style`. If a name is repeated, the last one counts.
    /// In a tree there are none.
    pub css: Vec<(String, String)>,
    /// The items in it.
    pub body: Vec<Item>,
}

impl Element {
    /// Creates an element without attributes, css and items.
    pub fn new(tag: impl Into<String>) -> Element {
        Element {
            tag: tag.into(),
            attrs: Vec::new(),
            css: Vec::new(),
            body: Vec::new(),
        }
    }

    /// Appends an attribute.
    #[must_use]
    pub fn attr(mut self, name: impl Into<String>, value: impl Into<String>) -> Element {
        self.attrs.push((name.into(), value.into()));
        self
    }

    /// Appends a css property.
    ///
    /// ```
    /// use typst_html_proved::{write, Document, Element, Options};
    ///
    /// let warning = Element::new("p").css("color", "red").child("hot");
    /// let text = write(&Document::new().item(warning), Options::new())?;
    /// assert!(text.contains(r#"<p style="color: red">hot</p>"#));
    /// # Ok::<(), typst_html_proved::Refusal>(())
    /// ```
    #[must_use]
    pub fn css(mut self, name: impl Into<String>, value: impl Into<String>) -> Element {
        self.css.push((name.into(), value.into()));
        self
    }

    /// Appends a text, an element or other items to its body.
    #[must_use]
    pub fn child(mut self, items: impl IntoItems) -> Element {
        items.add_to(&mut self.body);
        self
    }

    /// Appends all items of an iterator to its body.
    ///
    /// ```
    /// use typst_html_proved::Element;
    ///
    /// let list = Element::new("ol").children((1..=3).map(|n| Element::new("li").child(n.to_string())));
    /// assert_eq!(list.body.len(), 3);
    /// ```
    #[must_use]
    pub fn children<I: IntoIterator>(mut self, items: I) -> Element
    where
        I::Item: IntoItems,
    {
        self.extend(items);
        self
    }
}

impl<T: IntoItems> Extend<T> for Element {
    fn extend<I: IntoIterator<Item = T>>(&mut self, items: I) {
        items
            .into_iter()
            .for_each(|given| given.add_to(&mut self.body));
    }
}

impl fmt::Display for Element {
    /// Writes its start tag for people: it is not escaped.
    fn fmt(&self, f: &mut fmt::Formatter<'_>) -> fmt::Result {
        write!(f, "<{}", self.tag)?;
        for (name, value) in &self.attrs {
            write!(f, " {name}={value:?}")?;
        }
        f.write_str(">")
    }
}
