//! The JSON that spells documents, items and elements. It is written in the form that the library
//! reads, and read as the library reads it.

use crate::{Document, Element, Info, Item};
use serde::de::{self, Deserialize, Deserializer, SeqAccess, Visitor};
use serde::ser::{self, Serialize, SerializeMap, Serializer};
use std::fmt;
use std::mem;

/// The greatest number of nested lists in JSON that is read.
const DEEPEST: usize = 127;

/// The first words of the lists that spell items.
const KINDS: &[&str] = &[
    "text", "space", "break", "hole", "el", "block", "box", "start", "end", "place", "link", "role",
];

/// A part of a document, and the number of nested lists for which it has room.
struct Within<'a, T: ?Sized> {
    part: &'a T,
    room: usize,
}

impl<T: ?Sized> Within<'_, T> {
    /// Returns the content of this part, which takes that many lists itself. Fails if they do not
    /// fit.
    fn inside<'a, P: ?Sized, E>(&self, lists: usize, part: &'a P) -> Result<Within<'a, P>, E>
    where
        E: ser::Error,
    {
        match self.room.checked_sub(lists) {
            Some(room) => Ok(Within { part, room }),
            None => Err(E::custom(format!(
                "more than {DEEPEST} lists stand in one another"
            ))),
        }
    }

    /// Returns the body of this part, which is a list too. Fails if it does not fit.
    fn body<'a, E: ser::Error>(&self, body: &'a [Item]) -> Result<Within<'a, [Item]>, E> {
        self.inside(2, body)
    }
}

impl Serialize for Within<'_, [Item]> {
    fn serialize<S: Serializer>(&self, to: S) -> Result<S::Ok, S::Error> {
        let room = self.room;
        to.collect_seq(self.part.iter().map(|part| Within { part, room }))
    }
}

impl Serialize for Within<'_, Element> {
    fn serialize<S: Serializer>(&self, to: S) -> Result<S::Ok, S::Error> {
        let Element {
            tag,
            attrs,
            css,
            body,
        } = self.part;
        if css.is_empty() {
            return ("el", tag, attrs, self.body(body)?).serialize(to);
        }
        ("el", tag, attrs, css, self.body(body)?).serialize(to)
    }
}

impl Serialize for Within<'_, Item> {
    fn serialize<S: Serializer>(&self, to: S) -> Result<S::Ok, S::Error> {
        let room = self.room;
        match self.part {
            Item::Text(text) => ("text", text).serialize(to),
            Item::Space => ("space",).serialize(to),
            Item::Break => ("break",).serialize(to),
            Item::Element(part) => Within { part, room }.serialize(to),
            Item::Block(body) => ("block", self.body(body)?).serialize(to),
            Item::Box(body) => ("box", self.body(body)?).serialize(to),
            Item::Hole => ("hole",).serialize(to),
            Item::Start {
                location,
                destination,
                label: Some(label),
            } => ("start", location, destination, label).serialize(to),
            Item::Start {
                location,
                destination: None,
                ..
            } => ("start", location).serialize(to),
            Item::Start {
                location,
                destination: Some(destination),
                ..
            } => ("start", location, destination).serialize(to),
            Item::End(location) => ("end", location).serialize(to),
            Item::Place(name) => ("place", name).serialize(to),
            Item::Link(name) => ("link", name).serialize(to),
            Item::Role { role, item } => ("role", role, self.inside(1, &**item)?).serialize(to),
        }
    }
}

impl Serialize for Item {
    fn serialize<S: Serializer>(&self, to: S) -> Result<S::Ok, S::Error> {
        let (part, room) = (self, DEEPEST);
        Within { part, room }.serialize(to)
    }
}

impl Serialize for Element {
    fn serialize<S: Serializer>(&self, to: S) -> Result<S::Ok, S::Error> {
        let (part, room) = (self, DEEPEST);
        Within { part, room }.serialize(to)
    }
}

/// Writes the texts that are set, each under its name.
fn put_texts<S: SerializeMap>(
    to: &mut S,
    texts: &[(&str, &Option<String>)],
) -> Result<(), S::Error> {
    for (name, text) in texts {
        if let Some(text) = text {
            to.serialize_entry(name, text)?;
        }
    }
    Ok(())
}

/// Writes the members of the information about a document.
fn put_info<S: SerializeMap>(info: &Info, to: &mut S) -> Result<(), S::Error> {
    put_texts(
        to,
        &[("title", &info.title), ("description", &info.description)],
    )?;
    for (name, texts) in [("authors", &info.authors), ("keywords", &info.keywords)] {
        if !texts.is_empty() {
            to.serialize_entry(name, texts)?;
        }
    }
    match info.lang {
        None => Ok(()),
        Some(_) => put_texts(to, &[("lang", &info.lang), ("region", &info.region)]),
    }
}

impl Serialize for Document {
    fn serialize<S: Serializer>(&self, to: S) -> Result<S::Ok, S::Error> {
        let mut document = to.serialize_map(None)?;
        put_info(&self.info, &mut document)?;
        document.serialize_entry("items", &self.items)?;
        document.serialize_entry("footnotes", &self.footnotes)?;
        if !self.head.is_empty() {
            document.serialize_entry("head", &self.head)?;
        }
        document.end()
    }
}

/// A value in the list of an item. (Its meaning depends on the number of values in the list.)
enum Field {
    Null,
    Number(u64),
    Text(String),
    List(Vec<Field>),
}

struct FieldVisitor;

impl<'de> Visitor<'de> for FieldVisitor {
    type Value = Field;

    fn expecting(&self, f: &mut fmt::Formatter<'_>) -> fmt::Result {
        f.write_str("a text, a whole number, a list or null")
    }

    fn visit_unit<E: de::Error>(self) -> Result<Field, E> {
        Ok(Field::Null)
    }

    fn visit_u64<E: de::Error>(self, number: u64) -> Result<Field, E> {
        Ok(Field::Number(number))
    }

    fn visit_i64<E: de::Error>(self, number: i64) -> Result<Field, E> {
        let unexpected = de::Unexpected::Signed(number);
        u64::try_from(number)
            .map(Field::Number)
            .map_err(|_| E::invalid_value(unexpected, &self))
    }

    fn visit_str<E: de::Error>(self, text: &str) -> Result<Field, E> {
        Ok(Field::Text(text.to_owned()))
    }

    fn visit_string<E: de::Error>(self, text: String) -> Result<Field, E> {
        Ok(Field::Text(text))
    }

    fn visit_seq<A: SeqAccess<'de>>(self, mut list: A) -> Result<Field, A::Error> {
        let mut fields = Vec::new();
        while let Some(field) = list.next_element()? {
            fields.push(field);
        }
        Ok(Field::List(fields))
    }
}

impl<'de> Deserialize<'de> for Field {
    fn deserialize<D: Deserializer<'de>>(from: D) -> Result<Field, D::Error> {
        from.deserialize_any(FieldVisitor)
    }
}

impl Field {
    fn other<T, E: de::Error>(wanted: &str) -> Result<T, E> {
        Err(E::custom(format!("a field of an item is not {wanted}")))
    }

    fn text<E: de::Error>(self) -> Result<String, E> {
        match self {
            Field::Text(text) => Ok(text),
            _ => Field::other("a text"),
        }
    }

    fn number<E: de::Error>(self) -> Result<u64, E> {
        match self {
            Field::Number(number) => Ok(number),
            _ => Field::other("a whole number"),
        }
    }

    /// Returns what the function makes of it, or `None` for null.
    fn or_null<T, E>(self, made: impl FnOnce(Field) -> Result<T, E>) -> Result<Option<T>, E> {
        match self {
            Field::Null => Ok(None),
            field => made(field).map(Some),
        }
    }

    fn list<T, E: de::Error>(self, made: impl FnMut(Field) -> Result<T, E>) -> Result<Vec<T>, E> {
        match self {
            Field::List(fields) => fields.into_iter().map(made).collect(),
            _ => Field::other("a list"),
        }
    }

    fn pair<E: de::Error>(self) -> Result<(String, String), E> {
        match <[Field; 2]>::try_from(self.list(Ok)?) {
            Ok([name, value]) => Ok((name.text()?, value.text()?)),
            Err(_) => Field::other("a pair of a name and a value"),
        }
    }

    fn body<E: de::Error>(self) -> Result<Vec<Item>, E> {
        self.list(Field::item)
    }

    fn item<E: de::Error>(self) -> Result<Item, E> {
        let mut fields = self.list(Ok)?;
        if fields.is_empty() {
            return Err(E::custom("the list of an item is empty"));
        }
        let kind: String = fields.remove(0).text()?;
        if !KINDS.contains(&kind.as_str()) {
            return Err(E::unknown_variant(&kind, KINDS));
        }
        item_of(&kind, fields)
    }
}

/// Returns the item of that kind with these fields.
fn item_of<E: de::Error>(kind: &str, fields: Vec<Field>) -> Result<Item, E> {
    let count = fields.len();
    let mut fields = fields.into_iter();
    let mut next = || fields.next().unwrap_or(Field::Null);
    Ok(match (kind, count) {
        ("text", 1) => Item::Text(next().text()?),
        ("space", 0) => Item::Space,
        ("break", 0) => Item::Break,
        ("hole", 0) => Item::Hole,
        ("el", 3 | 4) => Item::Element(Element {
            tag: next().text()?,
            attrs: next().list(Field::pair)?,
            css: if count == 4 {
                next().list(Field::pair)?
            } else {
                Vec::new()
            },
            body: next().body()?,
        }),
        ("block", 1) => Item::Block(next().body()?),
        ("box", 1) => Item::Box(next().body()?),
        ("start", 1 | 2) => Item::Start {
            location: next().number()?,
            destination: if count == 2 {
                Some(next().number()?)
            } else {
                None
            },
            label: None,
        },
        ("start", 3) => Item::Start {
            location: next().number()?,
            destination: next().or_null(Field::number)?,
            label: Some(next().text()?),
        },
        ("end", 1) => Item::End(next().number()?),
        ("place", 1) => Item::Place(next().text()?),
        ("link", 1) => Item::Link(next().text()?),
        ("role", 2) => Item::Role {
            role: next().or_null(Field::text)?,
            item: Box::new(next().item()?),
        },
        _ => {
            let report = format!("the list of an item of kind {kind} has {count} fields");
            return Err(E::custom(report));
        }
    })
}

impl<'de> Deserialize<'de> for Item {
    fn deserialize<D: Deserializer<'de>>(from: D) -> Result<Item, D::Error> {
        Field::deserialize(from)?.item()
    }
}

impl<'de> Deserialize<'de> for Element {
    fn deserialize<D: Deserializer<'de>>(from: D) -> Result<Element, D::Error> {
        match &mut Item::deserialize(from)? {
            Item::Element(element) => Ok(mem::replace(element, Element::new(""))),
            _ => Err(de::Error::custom("an item that is no element")),
        }
    }
}

/// The members of a document. (An `Option` alone would accept `null` as a missing text.)
#[derive(Default, serde::Deserialize)]
#[serde(default, deny_unknown_fields)]
struct Members {
    #[serde(deserialize_with = "present")]
    title: Option<String>,
    #[serde(deserialize_with = "present")]
    description: Option<String>,
    authors: Vec<String>,
    keywords: Vec<String>,
    #[serde(deserialize_with = "present")]
    lang: Option<String>,
    #[serde(deserialize_with = "present")]
    region: Option<String>,
    items: Vec<Item>,
    footnotes: Vec<Item>,
    head: Vec<Item>,
}

/// Reads a member that is present.
fn present<'de, D: Deserializer<'de>>(from: D) -> Result<Option<String>, D::Error> {
    String::deserialize(from).map(Some)
}

impl<'de> Deserialize<'de> for Document {
    fn deserialize<D: Deserializer<'de>>(from: D) -> Result<Document, D::Error> {
        let members = Members::deserialize(from)?;
        if members.region.is_some() && members.lang.is_none() {
            return Err(de::Error::custom("a region without a language"));
        }
        Ok(Document {
            info: Info {
                title: members.title,
                description: members.description,
                authors: members.authors,
                keywords: members.keywords,
                lang: members.lang,
                region: members.region,
            },
            items: members.items,
            footnotes: members.footnotes,
            head: members.head,
        })
    }
}
