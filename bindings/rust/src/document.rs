//! A document: the information about it, its items, its footnotes, and nodes for its head.

use crate::{IntoItems, Item};

/// The information about a document, for its head.
#[derive(Clone, Debug, Default, PartialEq, Eq)]
#[non_exhaustive]
pub struct Info {
    /// The title.
    pub title: Option<String>,
    /// The description.
    pub description: Option<String>,
    /// The authors.
    pub authors: Vec<String>,
    /// The keywords.
    pub keywords: Vec<String>,
    /// The language, such as `de`.
    pub lang: Option<String>,
    /// The region in which the language is spoken, such as `AT`. It is left out if there is no
    /// language.
    pub region: Option<String>,
}

/// A document: the information about it, its items, its footnotes, and nodes for its head.
///
/// ```
/// use typst_html_proved::{write, Document, Element, Options};
///
/// let document = Document::new()
///     .title("Tides")
///     .author("A. Reed")
///     .lang("de", "AT")
///     .item(Element::new("h1").child("Ebbe < Flut"));
/// let text = write(&document, Options::new())?;
/// assert!(text.starts_with(r#"<!DOCTYPE html><html lang="de-AT">"#));
/// assert!(text.contains("<title>Tides</title>"));
/// assert!(text.ends_with("<body><h1>Ebbe &lt; Flut</h1></body></html>"));
/// # Ok::<(), typst_html_proved::Refusal>(())
/// ```
///
/// An iterator can be collected into a document, as its items:
///
/// ```
/// use typst_html_proved::{Document, Element};
///
/// let lines = "Ebbe\nFlut";
/// let document: Document = lines.lines().map(|line| Element::new("p").child(line)).collect();
/// assert_eq!(document.items.len(), 2);
/// ```
#[derive(Clone, Debug, Default, PartialEq, Eq)]
#[non_exhaustive]
pub struct Document {
    /// The information about it.
    pub info: Info,
    /// Its items.
    pub items: Vec<Item>,
    /// Its footnotes, which stand at the end of the body.
    pub footnotes: Vec<Item>,
    /// The nodes at the end of its head: texts, and elements that hold only such.
    pub head: Vec<Item>,
}

impl Document {
    /// Creates a document without information, items, footnotes and nodes for the head.
    pub fn new() -> Document {
        Document::default()
    }

    /// Sets the title.
    #[must_use]
    pub fn title(mut self, title: impl Into<String>) -> Document {
        self.info.title = Some(title.into());
        self
    }

    /// Sets the description.
    #[must_use]
    pub fn description(mut self, description: impl Into<String>) -> Document {
        self.info.description = Some(description.into());
        self
    }

    /// Appends an author.
    #[must_use]
    pub fn author(mut self, author: impl Into<String>) -> Document {
        self.info.authors.push(author.into());
        self
    }

    /// Appends a keyword.
    #[must_use]
    pub fn keyword(mut self, keyword: impl Into<String>) -> Document {
        self.info.keywords.push(keyword.into());
        self
    }

    /// Sets the language, and the region in which it is spoken. An empty region is none.
    #[must_use]
    pub fn lang(mut self, lang: impl Into<String>, region: impl Into<String>) -> Document {
        self.info.lang = Some(lang.into());
        self.info.region = Some(region.into()).filter(|region| !region.is_empty());
        self
    }

    /// Appends a text, an element or other items.
    #[must_use]
    pub fn item(mut self, items: impl IntoItems) -> Document {
        items.add_to(&mut self.items);
        self
    }

    /// Appends one or several footnotes.
    #[must_use]
    pub fn footnote(mut self, items: impl IntoItems) -> Document {
        items.add_to(&mut self.footnotes);
        self
    }

    /// Appends an element, a text or other nodes to the head.
    ///
    /// ```
    /// use typst_html_proved::{write, Document, Element, Options};
    ///
    /// let icon = Element::new("link").attr("rel", "icon").attr("href", "i.png");
    /// let text = write(&Document::new().head(icon), Options::new())?;
    /// assert!(text.contains(r#"<link rel="icon" href="i.png"></head>"#));
    /// # Ok::<(), typst_html_proved::Refusal>(())
    /// ```
    #[must_use]
    pub fn head(mut self, items: impl IntoItems) -> Document {
        items.add_to(&mut self.head);
        self
    }
}

impl<T: IntoItems> Extend<T> for Document {
    /// Appends items.
    fn extend<I: IntoIterator<Item = T>>(&mut self, items: I) {
        items
            .into_iter()
            .for_each(|given| given.add_to(&mut self.items));
    }
}

impl<T: IntoItems> FromIterator<T> for Document {
    /// Creates a document of these items, without information.
    fn from_iter<I: IntoIterator<Item = T>>(items: I) -> Document {
        let mut document = Document::new();
        document.extend(items);
        document
    }
}
