//! The fields of a line, read straight into their places, and borrowed from the line where they can be.
use crate::refused::{Refused, R};
use serde::de::{Deserialize, Deserializer, Visitor};
use serde_json::Value;
use std::borrow::Cow;
use std::fmt;
use std::ops::Deref;

/// A text, borrowed from the line unless something in it is escaped. (An `Option` of serde's own `Cow` doesn't borrow.)
pub(crate) struct Text<'a>(Cow<'a, str>);

impl Deref for Text<'_> {
    type Target = str;
    fn deref(&self) -> &str {
        &self.0
    }
}

impl<'de: 'a, 'a> Deserialize<'de> for Text<'a> {
    fn deserialize<D: Deserializer<'de>>(from: D) -> Result<Self, D::Error> {
        struct TextVisitor;
        impl<'de> Visitor<'de> for TextVisitor {
            type Value = Text<'de>;
            fn expecting(&self, f: &mut fmt::Formatter) -> fmt::Result {
                f.write_str("a text")
            }
            fn visit_borrowed_str<E>(self, text: &'de str) -> Result<Text<'de>, E> {
                Ok(Text(Cow::Borrowed(text)))
            }
            fn visit_str<E>(self, text: &str) -> Result<Text<'de>, E> {
                Ok(Text(Cow::Owned(text.to_string())))
            }
        }
        from.deserialize_str(TextVisitor)
    }
}

/// A field that is there has a value: `null` is none.
fn some<'de, D: Deserializer<'de>, T: Deserialize<'de>>(from: D) -> Result<Option<T>, D::Error> {
    T::deserialize(from).map(Some)
}

/// The fields of every command.
#[derive(serde::Deserialize)]
#[serde(deny_unknown_fields)]
pub(crate) struct Line<'a> {
    #[serde(borrow, rename = "do")]
    pub(crate) word: Text<'a>,
    #[serde(borrow, default, deserialize_with = "some")]
    pub(crate) client: Option<Text<'a>>,
    #[serde(borrow, default, deserialize_with = "some")]
    pub(crate) user: Option<Text<'a>>,
    #[serde(borrow, default, deserialize_with = "some")]
    pub(crate) filter: Option<Text<'a>>,
    #[serde(borrow, default, deserialize_with = "some")]
    pub(crate) topic: Option<Text<'a>>,
    #[serde(borrow, default, deserialize_with = "some")]
    pub(crate) payload: Option<Text<'a>>,
    #[serde(borrow, default, deserialize_with = "some")]
    pub(crate) text: Option<Text<'a>>,
    #[serde(default, deserialize_with = "some")]
    pub(crate) clean: Option<bool>,
    #[serde(default, deserialize_with = "some")]
    pub(crate) no_local: Option<bool>,
    #[serde(default, deserialize_with = "some")]
    pub(crate) rap: Option<bool>,
    #[serde(default, deserialize_with = "some")]
    pub(crate) retain: Option<bool>,
    #[serde(default, deserialize_with = "some")]
    pub(crate) session_expiry: Option<u64>,
    #[serde(default, deserialize_with = "some")]
    pub(crate) qos: Option<u64>,
    #[serde(default, deserialize_with = "some")]
    pub(crate) handling: Option<u64>,
    #[serde(default, deserialize_with = "some")]
    pub(crate) id: Option<u64>,
    #[serde(default, deserialize_with = "some")]
    pub(crate) expiry: Option<u64>,
    #[serde(default, deserialize_with = "some")]
    pub(crate) seconds: Option<u64>,
}

const WORDS: [&str; 8] =
    ["connect", "disconnect", "subscribe", "unsubscribe", "publish", "acl", "advance", "stat"];

/// Hands the fields of a line on.
pub(crate) fn read<T>(line: &[u8], mut apply: impl FnMut(&Line) -> R<T>) -> R<T> {
    let text = std::str::from_utf8(line).map_err(|_| Refused(2, 0))?;
    // An array would be taken for the fields in their order.
    if text.trim_start().starts_with('{') {
        if let Ok(fields) = serde_json::from_str::<Line>(text) {
            return apply(&fields);
        }
    }
    read_slowly(text, apply)
}

/// Of a line that holds a name twice the last counts, as a value has it. Other lines that can't be read are refused.
#[cold]
fn read_slowly<T>(text: &str, mut apply: impl FnMut(&Line) -> R<T>) -> R<T> {
    let value: Value = serde_json::from_str(text).map_err(|_| Refused(2, 0))?;
    let word = value.as_object().and_then(|fields| fields.get("do")).and_then(Value::as_str);
    if !word.map_or(false, |word| WORDS.contains(&word)) {
        return Err(Refused(3, 0));
    }
    apply(&Line::deserialize(&value).map_err(|_| Refused(4, 0))?)
}

pub(crate) fn text<'a>(field: &'a Option<Text>) -> R<&'a str> {
    field.as_deref().ok_or(Refused(4, 0))
}

pub(crate) fn num(field: Option<u64>, least: u64, most: u64) -> R<Option<u64>> {
    match field {
        Some(n) if n < least || most < n => Err(Refused(4, 0)),
        field => Ok(field),
    }
}

/// Refuses fields that aren't the command's.
pub(crate) fn only(line: &Line, names: &[&str]) -> R<()> {
    let fields = [
        ("client", line.client.is_some()),
        ("user", line.user.is_some()),
        ("filter", line.filter.is_some()),
        ("topic", line.topic.is_some()),
        ("payload", line.payload.is_some()),
        ("text", line.text.is_some()),
        ("clean", line.clean.is_some()),
        ("no_local", line.no_local.is_some()),
        ("rap", line.rap.is_some()),
        ("retain", line.retain.is_some()),
        ("session_expiry", line.session_expiry.is_some()),
        ("qos", line.qos.is_some()),
        ("handling", line.handling.is_some()),
        ("id", line.id.is_some()),
        ("expiry", line.expiry.is_some()),
        ("seconds", line.seconds.is_some()),
    ];
    if fields.iter().all(|(name, there)| !there || names.contains(name)) {
        Ok(())
    } else {
        Err(Refused(4, 0))
    }
}
