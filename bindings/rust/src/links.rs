//! The ids, the names and the links of a page.

use crate::findings::{with_paths, IdJson, Located};
use crate::Place;
use serde::{Deserialize, Serialize};
use std::fmt;

/// The parts of a page that a check of links between pages needs: the places to which they may
/// lead, and its own links.
#[derive(Clone, Debug, Default, PartialEq, Eq, Serialize, Deserialize)]
#[non_exhaustive]
pub struct PageLinks {
    /// The ids of its elements except empty ones, in order.
    pub ids: Vec<PageId>,
    /// The names of its `a` elements except empty ones, in order. A link may lead to one as to an
    /// id.
    pub names: Vec<PageName>,
    /// Its links, in order: each `a` and `area` with an `href`.
    pub links: Vec<PageLink>,
}

impl fmt::Display for PageLinks {
    /// Writes a line for each, without a line end behind the last.
    fn fmt(&self, f: &mut fmt::Formatter<'_>) -> fmt::Result {
        let ids = self.ids.iter().map(|one| one as &dyn fmt::Display);
        let names = self.names.iter().map(|one| one as &dyn fmt::Display);
        let links = self.links.iter().map(|one| one as &dyn fmt::Display);
        let mut before = "";
        for one in ids.chain(names).chain(links) {
            write!(f, "{before}{one}")?;
            before = "\n";
        }
        Ok(())
    }
}

/// The id of an element of a page.
#[derive(Clone, Debug, PartialEq, Eq, Serialize, Deserialize)]
#[non_exhaustive]
pub struct PageId {
    /// The index of each child on the path from the root to the element. Texts count.
    pub path: Vec<usize>,
    /// The id.
    pub id: String,
    /// The place where the element's start tag begins.
    pub place: Place,
}

impl fmt::Display for PageId {
    /// Writes a line: `2:1: the id "a"`.
    fn fmt(&self, f: &mut fmt::Formatter<'_>) -> fmt::Result {
        write!(f, "{}: the id \"{}\"", self.place, self.id)
    }
}

/// The name of an `a` element of a page.
#[derive(Clone, Debug, PartialEq, Eq, Serialize, Deserialize)]
#[non_exhaustive]
pub struct PageName {
    /// The index of each child on the path from the root to the element. Texts count.
    pub path: Vec<usize>,
    /// The name.
    pub name: String,
    /// The place where the element's start tag begins.
    pub place: Place,
}

impl fmt::Display for PageName {
    /// Writes a line: `2:1: the name "a"`.
    fn fmt(&self, f: &mut fmt::Formatter<'_>) -> fmt::Result {
        write!(f, "{}: the name \"{}\"", self.place, self.name)
    }
}

/// A link of a page.
#[derive(Clone, Debug, PartialEq, Eq, Serialize, Deserialize)]
#[non_exhaustive]
pub struct PageLink {
    /// The index of each child on the path from the root to the link. Texts count.
    pub path: Vec<usize>,
    /// Its address, as it is written.
    pub href: String,
    /// The place where the link's start tag begins.
    pub place: Place,
}

impl fmt::Display for PageLink {
    /// Writes a line: `2:1: a link to "b.html#c"`.
    fn fmt(&self, f: &mut fmt::Formatter<'_>) -> fmt::Result {
        write!(f, "{}: a link to \"{}\"", self.place, self.href)
    }
}

/// The lists, in the form of the library's JSON.
#[derive(Deserialize)]
pub(crate) struct PageLinksJson {
    ids: Vec<Located<IdJson>>,
    names: Vec<Located<NameJson>>,
    links: Vec<Located<HrefJson>>,
}

#[derive(Deserialize)]
struct NameJson {
    name: String,
}

#[derive(Deserialize)]
struct HrefJson {
    href: String,
}

impl PageLinksJson {
    /// Returns the lists of a text before which a mark of so many bytes was put.
    pub(crate) fn behind(self, mark: u64) -> PageLinks {
        PageLinks {
            ids: with_paths(self.ids, mark, |path, found, place| PageId {
                path,
                id: found.id,
                place,
            }),
            names: with_paths(self.names, mark, |path, found, place| PageName {
                path,
                name: found.name,
                place,
            }),
            links: with_paths(self.links, mark, |path, found, place| PageLink {
                path,
                href: found.href,
                place,
            }),
        }
    }
}
