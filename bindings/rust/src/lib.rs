//! Writes HTML text of documents with a library of proved code: texts are escaped, spaces that
//! are wanted stay, and what HTML cannot hold is refused with a number and a place.
//!
//! ```
//! use typst_html_proved::{write, Document, Element, Options};
//!
//! let document = Document::new()
//!     .title("Salt")
//!     .item(Element::new("p").child("Salt & vinegar"));
//! let text = write(&document, Options::new())?;
//! assert!(text.ends_with("<p>Salt &amp; vinegar</p></body></html>"));
//! # Ok::<(), typst_html_proved::Refusal>(())
//! ```
//!
//! A refusal has a number, and the path of the item:
//!
//! ```
//! use typst_html_proved::{write, Document, Element, Options};
//!
//! let wrong = Document::new().item("a").item(Element::new("br").child("no"));
//! let refusal = write(&wrong, Options::new()).unwrap_err();
//! assert_eq!(refusal.to_string(), "a void element has a child (refusal 12 at 2, items[1])");
//! let item = wrong.item_at(refusal.path().unwrap()).unwrap();
//! assert_eq!((refusal.number(), item), (12, &wrong.items[1]));
//! ```
//!
//! If [`Options::links`] is set, links get the `href` of their destination. If a destination is
//! missing, the error holds the text and the list of these links.
//!
//! ```
//! use typst_html_proved::{write, Document, Element, Item, Options, Refusal};
//!
//! let document = Document::new()
//!     .item(Item::Link("moon".into())) // there is no such place
//!     .item(Element::new("a").child("there"));
//! match write(&document, Options::new().links(true)) {
//!     Ok(text) => print!("{text}"),
//!     Err(Refusal::DeadLinks(dead)) => {
//!         let line = dead.links[0].to_string();
//!         assert_eq!(line, r#"items[1]: a link to "moon" leads nowhere"#);
//!         assert!(dead.text.ends_with("<body><a>there</a></body></html>"));
//!     }
//!     Err(refusal) => return Err(refusal),
//! }
//! # Ok::<(), Refusal>(())
//! ```
//!
//! [`check`] finds what is wrong in a page, written here or elsewhere: links within it that lead
//! nowhere, repeated ids, and nodes that browsers would move. [`links`] lists the ids and the
//! links of a page, to check links between pages.
//!
//! Calls share nothing, so any number of threads may make them. Each needs 256 KB of stack,
//! whatever the input and the limit are. With less, a deep input ends the process.

//! Documents, items and findings implement the traits of `serde`. The JSON of documents and items
//! has the form that the library reads.

#![deny(missing_docs)]

mod document;
mod findings;
mod item;
mod json;
mod links;
mod path;
mod raw;
mod refusal;

pub use document::{Document, Info};
pub use findings::{DeadFragment, DeadLink, Findings, Misnested, RepeatedId};
use findings::{FindingsJson, LinksJson, UnusedJson};
pub use item::{Element, IntoItems, Item};
use links::PageLinksJson;
pub use links::{PageId, PageLink, PageLinks, PageName};
use path::{Form, Given};
pub use path::{ItemPath, Step};
pub use refusal::{DeadLinks, Place, Refusal};
use std::borrow::Cow;

/// The examples of the crate's first page.
#[cfg(doctest)]
#[doc = include_str!("../README.md")]
pub struct FirstPage;

/// The version of the library's calls that this crate was made for.
pub const VERSION: u32 = 8;

/// The reason why reading the library's own JSON does not fail.
const KNOWN_FORM: &str = "the library writes JSON of that form";

/// The options for writing a document.
///
/// ```
/// use typst_html_proved::Options;
///
/// let options = Options::new().pretty(true).limit(20);
/// assert_eq!((options.pretty, options.links, options.limit), (true, false, 20));
/// ```
#[derive(Clone, Copy, Debug, PartialEq, Eq)]
#[non_exhaustive]
pub struct Options {
    /// Whether the text is laid out in indented lines, wherever that does not change what is
    /// visible.
    pub pretty: bool,
    /// Whether each `a` without `href` behind an [`Item::Link`], or an [`Item::Start`] with a
    /// destination, gets the `href` of that place. If the document has no such place, writing fails
    /// with [`Refusal::DeadLinks`], which holds the text.
    pub links: bool,
    /// The greatest depth of bodies, from 1 to 10,000. JSON is read 127 levels deep, which is 63
    /// nested elements.
    pub limit: u32,
}

impl Options {
    /// Creates options for plain text, links as they are, and bodies at most 50 deep.
    pub const fn new() -> Options {
        Options {
            pretty: false,
            links: false,
            limit: 50,
        }
    }

    /// Sets whether the text is laid out in indented lines.
    #[must_use]
    pub const fn pretty(mut self, pretty: bool) -> Options {
        self.pretty = pretty;
        self
    }

    /// Sets whether links get the `href` of their destination.
    #[must_use]
    pub const fn links(mut self, links: bool) -> Options {
        self.links = links;
        self
    }

    /// Sets the greatest depth of bodies.
    #[must_use]
    pub const fn limit(mut self, limit: u32) -> Options {
        self.limit = limit;
        self
    }
}

impl Default for Options {
    /// Returns the options of [`Options::new`].
    fn default() -> Options {
        Options::new()
    }
}

/// The kind of value that the JSON for [`write_json`] spells.
#[derive(Clone, Copy, Debug, PartialEq, Eq)]
#[non_exhaustive]
pub enum Kind {
    /// A tree: `["el", tag, [[name, value], ..], [node, ..]]`.
    Tree,
    /// The items of a document: `[item, ..]`.
    Items,
}

/// The position of a fragment's text in a page.
#[derive(Clone, Copy, Debug, PartialEq, Eq)]
pub enum Level {
    /// On lines of its own, as in a `div`. The spaces of items in plain flow stay.
    Block,
    /// In a line, as in a `p`. A space at either end of the text is left as it is.
    Inline,
}

/// Returns the version of the linked library's calls, to be compared with [`VERSION`].
pub fn version() -> u32 {
    raw::version()
}

/// Returns the text of a document.
pub fn write(document: &Document, options: Options) -> Result<String, Refusal> {
    let given = Given::Document(document);
    document_text(options, &spelled(document, given)?, given)
}

/// Returns the text of a tree. It may hold only texts, elements without css, starts without labels,
/// and ends: any other item is bad input.
pub fn write_tree(root: &Element, pretty: bool) -> Result<String, Refusal> {
    let given = Given::Tree(root);
    let json = spelled(root, given)?;
    raw::write(Kind::Tree, pretty, &json).map_err(|refusal| refusal.located(given))
}

/// Returns the text of items by themselves, without document type, head and body: a piece of a page
/// that another program makes, such as a template engine.
///
/// In a `div`, the text is read as the nodes of these items. Links get neither anchors nor an
/// `href`, since both depend on the ids of the whole page. `limit` is the greatest depth of bodies,
/// from 1 to 10,000. [`ItemPath::item_in`] returns the item of a refusal.
///
/// ```
/// use typst_html_proved::{write_fragment, Element, Level, Refusal};
///
/// let card = Element::new("p").css("color", "red").child("Salt & vinegar");
/// let text = write_fragment(&[card.into()], Level::Block, 50)?;
/// assert_eq!(text, r#"<p style="color: red">Salt &amp; vinegar</p>"#);
/// # Ok::<(), Refusal>(())
/// ```
pub fn write_fragment(items: &[Item], level: Level, limit: u32) -> Result<String, Refusal> {
    let given = Given::Fragment(items);
    let json = spelled(&items, given)?;
    raw::fragment(level, limit, &json).map_err(|refusal| refusal.located(given))
}

/// Returns the text of items by themselves, which a JSON list spells. The items have the form of
/// those of [`write_document_json`].
///
/// ```
/// use typst_html_proved::{write_fragment_json, Level, Refusal};
///
/// let text = write_fragment_json(br#"[["text","a < b"]]"#, Level::Inline, 50)?;
/// assert_eq!(text, "a &lt; b");
/// # Ok::<(), Refusal>(())
/// ```
pub fn write_fragment_json(json: &[u8], level: Level, limit: u32) -> Result<String, Refusal> {
    let given = Given::Json(Form::Fragment, json);
    raw::fragment(level, limit, json).map_err(|refusal| refusal.located(given))
}

/// Returns the text of a tree, or of the document of a list of items, that JSON spells. If it is
/// refused or bad, it is read once more for the path.
///
/// ```
/// use typst_html_proved::{write_json, Kind, Refusal};
///
/// let text = write_json(Kind::Tree, br#"["el","p",[],[["text","a < b"]]]"#, false)?;
/// assert_eq!(text, "<!DOCTYPE html><p>a &lt; b</p>");
/// let refusal = write_json(Kind::Items, br#"[["space"],["text"]]"#, false).unwrap_err();
/// assert_eq!(refusal.to_string(), "bad input at 2, [1]");
/// # Ok::<(), Refusal>(())
/// ```
pub fn write_json(kind: Kind, json: &[u8], pretty: bool) -> Result<String, Refusal> {
    let form = match kind {
        Kind::Tree => Form::Tree,
        Kind::Items => Form::Items,
    };
    let located = |refusal: Refusal| refusal.located(Given::Json(form, json));
    raw::write(kind, pretty, json).map_err(located)
}

/// Returns the text of the document that a JSON object spells, with information about it and with
/// footnotes. The members are `title`, `description`, `authors`, `keywords`, `lang`, `region`,
/// `items`, `footnotes` and `head`. Each may be left out, but a `region` requires a `lang`.
///
/// ```
/// use typst_html_proved::{write_document_json, Options, Refusal};
///
/// let json = br#"{"title":"Tides","authors":["A","B"],"items":[["text","Ebbe"]]}"#;
/// assert!(write_document_json(json, Options::new())?.contains("<title>Tides</title>"));
/// # Ok::<(), Refusal>(())
/// ```
pub fn write_document_json(json: &[u8], options: Options) -> Result<String, Refusal> {
    document_text(options, json, Given::Json(Form::Document, json))
}

/// Returns the text of the document that JSON spells. Fails if links are resolved and some lead
/// nowhere.
fn document_text(options: Options, json: &[u8], given: Given<'_>) -> Result<String, Refusal> {
    let located = |refusal: Refusal| refusal.located(given);
    let (text, lead) = raw::document(options, json).map_err(located)?;
    if lead {
        return Ok(text);
    }
    let listed = raw::dead_links(options.limit, json).map_err(located)?;
    let LinksJson { dead_links } = serde_json::from_str(&listed).expect(KNOWN_FORM);
    let mut paths = given.paths(dead_links.iter().map(|link| link.span));
    let names = given.names();
    let name = |number: u64| names.get(usize::try_from(number).ok()?.checked_sub(1)?);
    let links = dead_links.into_iter().map(|link| DeadLink {
        span: link.span,
        destination: link.destination,
        name: name(link.destination).cloned(),
        path: paths.remove(&link.span).unwrap_or_default(),
    });
    Err(Refusal::DeadLinks(DeadLinks {
        text,
        links: links.collect(),
    }))
}

/// Returns the names of the information about a document that its text does not show. If the items
/// have an `html` of their own, their head is used, and these are the names of all that is known.
/// Otherwise there are none. The order is `title`, `description`, `authors`, `keywords`, `lang`,
/// `region`, `head`.
///
/// ```
/// use typst_html_proved::{unused, Document, Element, Refusal};
///
/// let document = Document::new().title("Tides").item(Element::new("html"));
/// assert_eq!(unused(&document, 50)?, ["title"]);
/// # Ok::<(), Refusal>(())
/// ```
pub fn unused(document: &Document, limit: u32) -> Result<Vec<String>, Refusal> {
    let given = Given::Document(document);
    let json = spelled(document, given)?;
    let listed = raw::unused(limit, &json).map_err(|refusal| refusal.located(given))?;
    let UnusedJson { unused } = serde_json::from_str(&listed).expect(KNOWN_FORM);
    Ok(unused)
}

/// Returns what is wrong in a page, each with its place: links to fragments of the page itself that
/// lead nowhere, ids that an earlier element has, and nodes that a browser would not leave where
/// they are if the tree of the page were written.
///
/// Reads any page, as a browser without scripting does: what may be left out is implied, and errors
/// are recovered from. But a page with an element deeper than `limit` fails with
/// [`Refusal::PageRefused`]. The limit is from 1 to 1,000: `html` has depth 1. An encoding that the
/// page declares counts for nothing, since the page is a text.
///
/// ```
/// use typst_html_proved::{check, Place, Refusal};
///
/// let findings = check("<title>Pie</title>\n<p>Salt & <a href=#pepper>pepper</a>", 50)?;
/// let dead = &findings.dead_fragments[0];
/// assert_eq!((dead.fragment.as_str(), dead.path.as_slice()), ("pepper", &[1, 0, 1][..]));
/// assert_eq!(dead.place, Place { offset: 29, line: 2, column: 11 });
/// assert!(findings.repeated_ids.is_empty() && findings.misnested.is_empty());
///
/// // Without a document type a table stays in a p.
/// let findings = check("<p><table></table>", 50)?;
/// assert_eq!(findings.to_string(), "1:4: a node closes the p that it stands in");
///
/// let refusal = check("<p>\n<b>1</b></p>", 3).unwrap_err();
/// let deep = "a body, or an element of a page, stands deeper than the limit (refusal 8 at 2:1)";
/// assert_eq!(refusal.to_string(), deep);
/// # Ok::<(), Refusal>(())
/// ```
pub fn check(page: &str, limit: u32) -> Result<Findings, Refusal> {
    let (page, mark) = marked(page);
    let json = raw::check(limit, page.as_bytes()).map_err(|refusal| refusal.behind(mark))?;
    let findings: FindingsJson = serde_json::from_str(&json).expect(KNOWN_FORM);
    Ok(findings.behind(mark))
}

/// Returns what a check of links between pages needs of a page, each with its place: the ids and
/// names to which a link with a fragment may lead, and its own links. Pages, limits and refusals
/// are those of [`check`].
///
/// Addresses are returned as they are written: the caller finds out where they lead.
///
/// ```
/// use typst_html_proved::{links, Place, Refusal};
///
/// let page = links("<h1 id=salt>Salt</h1>\n<a href=pepper.html#black>pepper</a>", 50)?;
/// assert_eq!(page.ids[0].id, "salt");
/// let link = &page.links[0];
/// assert_eq!((link.href.as_str(), link.path.as_slice()), ("pepper.html#black", &[1, 2][..]));
/// assert_eq!(link.place, Place { offset: 22, line: 2, column: 1 });
/// assert_eq!(link.to_string(), "2:1: a link to \"pepper.html#black\"");
/// # Ok::<(), Refusal>(())
/// ```
pub fn links(page: &str, limit: u32) -> Result<PageLinks, Refusal> {
    let (page, mark) = marked(page);
    let json = raw::links(limit, page.as_bytes()).map_err(|refusal| refusal.behind(mark))?;
    let links: PageLinksJson = serde_json::from_str(&json).expect(KNOWN_FORM);
    Ok(links.behind(mark))
}

/// Returns a page with a byte order mark, and the length of the mark if it was put before the page.
/// The page is UTF-8 then, whatever encoding it declares.
fn marked(page: &str) -> (Cow<'_, str>, u64) {
    const MARK: &str = "\u{feff}";
    if page.starts_with(MARK) {
        (Cow::Borrowed(page), 0)
    } else {
        (Cow::Owned([MARK, page].concat()), MARK.len() as u64)
    }
}

/// Returns the JSON that the library reads. Fails only if a value is deeper than JSON is read:
/// texts, numbers, lists and maps of texts are always JSON.
fn spelled(value: &impl serde::Serialize, given: Given<'_>) -> Result<Vec<u8>, Refusal> {
    serde_json::to_vec(value).map_err(|_| Refusal::BAD_INPUT.located(given))
}
