//! Reasons why there is no text, or what is wrong with it.

use crate::path::Given;
use crate::{DeadLink, ItemPath};
use serde::{Deserialize, Serialize};
use std::fmt;
use thiserror::Error;

const DEAD_LINKS: &str = "links lead nowhere";

const OTHER_LIBRARY: &str = "the library that is linked is not of the version that is wanted";

/// A place in a page.
#[derive(Clone, Copy, Debug, PartialEq, Eq, Hash, Serialize, Deserialize)]
pub struct Place {
    /// The number of bytes of the page before it, in UTF-8.
    pub offset: u64,
    /// Its line, counted from 1. A line ends with a line feed, a carriage return, or both in the
    /// order CR LF.
    pub line: usize,
    /// Its column, counted from 1 in characters. A byte order mark at the beginning of the page
    /// does not count.
    pub column: usize,
}

impl Place {
    /// Returns the place in a text before which a mark of so many bytes was put.
    pub(crate) fn behind(self, mark: u64) -> Place {
        Place {
            offset: self.offset.saturating_sub(mark),
            ..self
        }
    }
}

impl fmt::Display for Place {
    /// Writes `line:column`, as in `3:14`.
    fn fmt(&self, f: &mut fmt::Formatter<'_>) -> fmt::Result {
        write!(f, "{}:{}", self.line, self.column)
    }
}

/// A text in which links lead nowhere.
#[derive(Clone, Debug, PartialEq, Eq)]
#[non_exhaustive]
pub struct DeadLinks {
    /// The text, in which these links have no `href`.
    pub text: String,
    /// The links, in document order: at least one.
    pub links: Vec<DeadLink>,
}

impl DeadLinks {
    /// Returns the span of the first link, or 0.
    fn span(&self) -> u64 {
        self.links.first().map_or(0, |link| link.span)
    }
}

impl fmt::Display for DeadLinks {
    /// Writes the number of links, and the span of the first.
    fn fmt(&self, f: &mut fmt::Formatter<'_>) -> fmt::Result {
        let (count, span) = (self.links.len(), self.span());
        write!(f, "{DEAD_LINKS} ({count}, the first at {span})")
    }
}

/// The reason why there is no text, or none without dead links.
#[derive(Clone, Debug, PartialEq, Eq, Error)]
#[non_exhaustive]
pub enum Refusal {
    /// The input breaks a rule of HTML, or holds something where it may not stand.
    #[error("{} (refusal {number} at {span}{})", words(.number), behind(.path))]
    #[non_exhaustive]
    Refused {
        /// The number of the rule, from 1 to 15. [`Refusal::words`] returns its words.
        number: u8,
        /// The number of the list of the node or item in the JSON, counted from 1 by their opening
        /// brackets, those of footnotes after those of items; 0 if the refusal has no place.
        span: u64,
        /// The path of that item, if the refusal has a place.
        path: Option<ItemPath>,
    },
    /// A page that is checked is not read: its elements are deeper than the limit, say, or have too
    /// many attributes.
    #[error("{} (refusal {number} at {place})", words(.number))]
    #[non_exhaustive]
    PageRefused {
        /// The number of the reason, 8 or from 25 to 40. [`Refusal::words`] returns its words.
        number: u8,
        /// The place where the tag or the character begins.
        place: Place,
    },
    /// The input spells nothing that can be written, or nests more than 127 levels of JSON, or the
    /// limit is wrong.
    #[error("bad input{}", place(.span, .line, .column, .path))]
    #[non_exhaustive]
    BadInput {
        /// The number of lists of nodes or items that are opened up to the first value that does
        /// not have the form, counted as those of a refusal; 0 before the first, or if there is no
        /// such value.
        span: u64,
        /// The line where the input is no JSON, counted from 1; otherwise 0.
        line: usize,
        /// The column there, counted from 1 in bytes; if the JSON ends too soon, the length of its
        /// last line.
        column: usize,
        /// The path of the first value that does not have the form: an item, or a value in place of
        /// an item, of a list of items or of another member. If an item is deeper than JSON is
        /// read, the path of the first such item. `None` if the caller's input is no JSON.
        path: Option<ItemPath>,
    },
    /// Links were to get the `href` of their destination, and some have a destination that is no
    /// place of the document. The error holds the text all the same.
    #[error("{0}")]
    DeadLinks(DeadLinks),
    /// An allocation failed.
    #[error("out of memory")]
    OutOfMemory,
    /// The linked library has another [`version`](crate::version), or replies as no library of
    /// [`VERSION`](crate::VERSION) does.
    #[error("{OTHER_LIBRARY}")]
    OtherLibrary,
}

impl Refusal {
    /// Bad input without a place.
    pub const BAD_INPUT: Refusal = Refusal::BadInput {
        span: 0,
        line: 0,
        column: 0,
        path: None,
    };

    /// Returns the number of the refusal, or 0 if it has none.
    pub fn number(&self) -> u8 {
        match self {
            Refusal::Refused { number, .. } | Refusal::PageRefused { number, .. } => *number,
            _ => 0,
        }
    }

    /// Returns the span of the refusal, of the first dead link, or of the value that does not have
    /// the form. For a page it is the number of bytes before the place. It is 0 if there is no such
    /// place.
    pub fn span(&self) -> u64 {
        match self {
            Refusal::Refused { span, .. } | Refusal::BadInput { span, .. } => *span,
            Refusal::PageRefused { place, .. } => place.offset,
            Refusal::DeadLinks(dead) => dead.span(),
            _ => 0,
        }
    }

    /// Returns the path of the refused item, of the first dead link, or of the value that does not
    /// have the form. It is a path in the caller's JSON, or in the JSON that spells the caller's
    /// value. [`Document::item_at`](crate::Document::item_at) follows it.
    pub fn path(&self) -> Option<&ItemPath> {
        match self {
            Refusal::Refused { path, .. } | Refusal::BadInput { path, .. } => path.as_ref(),
            Refusal::DeadLinks(dead) => dead.links.first().map(|link| &link.path),
            _ => None,
        }
    }

    /// Returns the refusal with its path in the caller's input.
    pub(crate) fn located(mut self, given: Given<'_>) -> Refusal {
        match &mut self {
            Refusal::Refused { span, path, .. } => *path = given.paths([*span]).remove(span),
            Refusal::BadInput {
                span,
                path,
                line: 0,
                ..
            } => {
                *path = given.left(*span).or_else(|| given.deepest());
            }
            // JSON that this crate wrote can fail to be read only because of its depth.
            Refusal::BadInput {
                path, line, column, ..
            } => {
                *path = given.deepest();
                if path.is_some() {
                    (*line, *column) = (0, 0);
                }
            }
            _ => {}
        }
        self
    }

    /// Returns the refusal of a text before which a mark of so many bytes was put.
    pub(crate) fn behind(mut self, mark: u64) -> Refusal {
        if let Refusal::PageRefused { place, .. } = &mut self {
            *place = place.behind(mark);
        }
        self
    }

    /// Returns words for what is wrong.
    pub fn words(&self) -> &'static str {
        match self {
            Refusal::Refused { number, .. } | Refusal::PageRefused { number, .. } => words(number),
            Refusal::BadInput { .. } => "bad input",
            Refusal::DeadLinks(_) => DEAD_LINKS,
            Refusal::OutOfMemory => "out of memory",
            Refusal::OtherLibrary => OTHER_LIBRARY,
        }
    }
}

/// Returns the path to be written behind a number, or an empty text if the path has no step.
fn behind(path: &Option<ItemPath>) -> String {
    match path {
        Some(path) if !path.steps().is_empty() => format!(", {path}"),
        _ => String::new(),
    }
}

/// Returns the place to be written behind "bad input".
fn place(span: &u64, line: &usize, column: &usize, path: &Option<ItemPath>) -> String {
    match (span, line, path) {
        (0, 0, Some(path)) if !path.steps().is_empty() => format!(" at {path}"),
        (0, 0, _) => String::new(),
        (_, 0, _) => format!(" at {span}{}", behind(path)),
        _ => format!(" at line {line} column {column}"),
    }
}

fn words(number: &u8) -> &'static str {
    match number {
        1 => "tag name must not be empty",
        2 => "a character is not valid in a tag name",
        3 => "custom element name must start with a lowercase letter",
        4 => "custom element name must not contain uppercase letters",
        5 => "name is reserved and not valid for a custom element",
        6 => "attribute name must not be empty",
        7 => "a character is not valid in an attribute name",
        8 => "a body, or an element of a page, stands deeper than the limit",
        9 => "an html or body element stands among other nodes",
        10 => "footnotes stand beside an html or body element of the document's own",
        11 => "a character cannot be encoded in HTML",
        12 => "a void element has a child",
        13 => "a raw text element has a child that is no text",
        14 => "a raw text would end its element",
        15 => "a frame is refused",
        25 => "the page names an encoding that is not known",
        28 => "an element has too many attributes",
        40 => "too many elements are made again",
        _ => "refused",
    }
}
