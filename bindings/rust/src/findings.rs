//! What is wrong with the links of a document, and what is wrong in a page.

use crate::{ItemPath, Place};
use serde::{Deserialize, Serialize};
use std::fmt;

/// A link that was to get the `href` of its destination, and leads nowhere.
#[derive(Clone, Debug, PartialEq, Eq, Hash, Serialize, Deserialize)]
#[non_exhaustive]
pub struct DeadLink {
    /// The number of its list in the JSON, counted as in [`Refusal::Refused`](crate::Refusal::Refused).
    pub span: u64,
    /// The location that it would lead to: its number, or the number of its name among those of the
    /// document, counted from 1.
    pub destination: u64,
    /// The name of the place that it would lead to, if it has one.
    #[serde(default, skip_serializing_if = "Option::is_none")]
    pub name: Option<String>,
    /// The path of its `a`.
    pub path: ItemPath,
}

impl fmt::Display for DeadLink {
    /// Writes a line: `items[1]: a link to location 7 leads nowhere`, or `a link to "moon"`.
    fn fmt(&self, f: &mut fmt::Formatter<'_>) -> fmt::Result {
        write!(f, "{}: a link to ", self.path)?;
        match &self.name {
            Some(name) => write!(f, "{name:?}")?,
            None => write!(f, "location {}", self.destination)?,
        }
        f.write_str(" leads nowhere")
    }
}

/// The dead links of a document, in the form of the library's JSON.
#[derive(Deserialize)]
pub(crate) struct LinksJson {
    pub(crate) dead_links: Vec<LinkJson>,
}

#[derive(Deserialize)]
pub(crate) struct LinkJson {
    pub(crate) span: u64,
    pub(crate) destination: u64,
}

/// The names of what a document leaves unused, in the form of the library's JSON.
#[derive(Deserialize)]
pub(crate) struct UnusedJson {
    pub(crate) unused: Vec<String>,
}

/// What is wrong in a page.
#[derive(Clone, Debug, Default, PartialEq, Eq, Serialize, Deserialize)]
#[non_exhaustive]
pub struct Findings {
    /// The links to fragments of the page itself that lead nowhere, in order.
    pub dead_fragments: Vec<DeadFragment>,
    /// The ids that an earlier element has, in order.
    pub repeated_ids: Vec<RepeatedId>,
    /// The nodes that a browser would not leave where they are if the tree of the page were
    /// written, in order.
    #[serde(default)] // JSON of earlier findings has none
    pub misnested: Vec<Misnested>,
}

impl Findings {
    /// Returns whether nothing is wrong.
    pub fn is_empty(&self) -> bool {
        self.dead_fragments.is_empty() && self.repeated_ids.is_empty() && self.misnested.is_empty()
    }
}

impl fmt::Display for Findings {
    /// Writes a line for each, without a line end behind the last.
    fn fmt(&self, f: &mut fmt::Formatter<'_>) -> fmt::Result {
        let dead = self
            .dead_fragments
            .iter()
            .map(|one| one as &dyn fmt::Display);
        let repeated = self.repeated_ids.iter().map(|one| one as &dyn fmt::Display);
        let misnested = self.misnested.iter().map(|one| one as &dyn fmt::Display);
        let mut before = "";
        for one in dead.chain(repeated).chain(misnested) {
            write!(f, "{before}{one}")?;
            before = "\n";
        }
        Ok(())
    }
}

/// A link to a fragment of its own page that leads nowhere.
#[derive(Clone, Debug, PartialEq, Eq, Serialize, Deserialize)]
#[non_exhaustive]
pub struct DeadFragment {
    /// The index of each child on the path from the root to the link. Texts count.
    pub path: Vec<usize>,
    /// The text behind `#`, as it is written.
    pub fragment: String,
    /// The place where the link's start tag begins.
    pub place: Place,
}

impl fmt::Display for DeadFragment {
    /// Writes a line: `2:11: "#pepper" leads nowhere`.
    fn fmt(&self, f: &mut fmt::Formatter<'_>) -> fmt::Result {
        write!(f, "{}: \"#{}\" leads nowhere", self.place, self.fragment)
    }
}

/// An id that an earlier element of its page has.
#[derive(Clone, Debug, PartialEq, Eq, Serialize, Deserialize)]
#[non_exhaustive]
pub struct RepeatedId {
    /// The index of each child on the path from the root to the element. Texts count.
    pub path: Vec<usize>,
    /// The id.
    pub id: String,
    /// The place where the element's start tag begins.
    pub place: Place,
}

impl fmt::Display for RepeatedId {
    /// Writes a line: `2:1: an element before has the id "a"`.
    fn fmt(&self, f: &mut fmt::Formatter<'_>) -> fmt::Result {
        write!(
            f,
            "{}: an element before has the id \"{}\"",
            self.place, self.id
        )
    }
}

/// A node of a page that a browser would not leave where it is if the tree of the page were
/// written. The browser's parser closes elements where others begin, moves what has no place in a
/// table, and more.
#[derive(Clone, Debug, PartialEq, Eq, Serialize, Deserialize)]
#[non_exhaustive]
pub struct Misnested {
    /// The index of each child on the path from the root to the node. Texts count.
    pub path: Vec<usize>,
    /// The name of the first rule that it breaks, such as `ClosesParagraph`.
    pub rule: String,
    /// What becomes of it, such as `closes the p that it stands in`.
    pub why: String,
    /// The place where the element's start tag begins, or for a text that of the element that holds
    /// it.
    pub place: Place,
}

impl fmt::Display for Misnested {
    /// Writes a line: `1:4: a node closes the p that it stands in`.
    fn fmt(&self, f: &mut fmt::Formatter<'_>) -> fmt::Result {
        write!(f, "{}: a node {}", self.place, self.why)
    }
}

/// The findings, in the form of the library's JSON.
#[derive(Deserialize)]
pub(crate) struct FindingsJson {
    dead_fragments: Vec<Located<FragmentJson>>,
    repeated_ids: Vec<Located<IdJson>>,
    misnested: Vec<Located<RuleJson>>,
}

/// A value in a page. Its path begins with the first `keeps` indices of the path before.
#[derive(Deserialize)]
pub(crate) struct Located<T> {
    #[serde(flatten)]
    value: T,
    keeps: usize,
    path: Vec<usize>,
    #[serde(flatten)]
    place: Place,
}

#[derive(Deserialize)]
struct FragmentJson {
    fragment: String,
}

#[derive(Deserialize)]
pub(crate) struct IdJson {
    pub(crate) id: String,
}

#[derive(Deserialize)]
struct RuleJson {
    rule: String,
    why: String,
}

impl FindingsJson {
    /// Returns the findings in a text before which a mark of so many bytes was put.
    pub(crate) fn behind(self, mark: u64) -> Findings {
        Findings {
            dead_fragments: with_paths(self.dead_fragments, mark, |path, found, place| {
                DeadFragment {
                    path,
                    fragment: found.fragment,
                    place,
                }
            }),
            repeated_ids: with_paths(self.repeated_ids, mark, |path, found, place| RepeatedId {
                path,
                id: found.id,
                place,
            }),
            misnested: with_paths(self.misnested, mark, |path, found, place| Misnested {
                path,
                rule: found.rule,
                why: found.why,
                place,
            }),
        }
    }
}

/// Returns the findings of a list, with whole paths, and places in the text behind the mark.
pub(crate) fn with_paths<T, U>(
    listed: Vec<Located<T>>,
    mark: u64,
    finding: impl Fn(Vec<usize>, T, Place) -> U,
) -> Vec<U> {
    let mut path = Vec::new();
    let mut findings = Vec::with_capacity(listed.len());
    for one in listed {
        path.truncate(one.keeps);
        path.extend(one.path);
        findings.push(finding(path.clone(), one.value, one.place.behind(mark)));
    }
    findings
}
