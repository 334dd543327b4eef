//! Answers as JSON, by docs/JSON.md.

use std::ffi::OsStr;
use std::fmt::{self, Display, Formatter, Write};
use std::os::unix::ffi::OsStrExt;

use judge::Refusal;

use crate::doc::{Part, Words};
use crate::source::escaped;

/// The version of the form, which each object bears. It rises where a field goes or changes its meaning; a field may be added without.
pub const VERSION: usize = 1;

/// A value.
#[derive(Clone, Debug, PartialEq, Eq)]
pub enum Json {
    Null,
    Bool(bool),
    Number(u64),
    Text(String),
    List(Vec<Json>),
    Object(Vec<(&'static str, Json)>),
}

impl Json {
    /// A list of values.
    pub fn list<T: Into<Json>>(values: impl IntoIterator<Item = T>) -> Json {
        Json::List(values.into_iter().map(Into::into).collect())
    }

    /// The object of an answer about a file, with its first fields.
    pub fn of_file(name: &OsStr, fields: Vec<(&'static str, Json)>) -> Json {
        let (file, bytes) = match name.to_str() {
            Some(text) => (String::from(text), Json::Null),
            None => (escaped(name), Json::Text(name.as_bytes().iter().map(|byte| format!("{byte:02x}")).collect())),
        };
        let mut all = vec![("version", VERSION.into()), ("file", file.into()), ("file_bytes", bytes)];
        all.extend(fields);
        Json::Object(all)
    }
}

impl From<u64> for Json {
    fn from(number: u64) -> Json {
        Json::Number(number)
    }
}

impl From<usize> for Json {
    fn from(number: usize) -> Json {
        Json::Number(number as u64)
    }
}

impl From<u32> for Json {
    fn from(number: u32) -> Json {
        Json::Number(number.into())
    }
}

impl From<u16> for Json {
    fn from(number: u16) -> Json {
        Json::Number(number.into())
    }
}

impl From<bool> for Json {
    fn from(yes: bool) -> Json {
        Json::Bool(yes)
    }
}

impl From<String> for Json {
    fn from(text: String) -> Json {
        Json::Text(text)
    }
}

impl From<&str> for Json {
    fn from(text: &str) -> Json {
        Json::Text(String::from(text))
    }
}

impl<T: Into<Json>> From<Option<T>> for Json {
    fn from(value: Option<T>) -> Json {
        value.map_or(Json::Null, Into::into)
    }
}

impl From<Refusal> for Json {
    fn from(refusal: Refusal) -> Json {
        Json::Object(vec![("number", refusal.number().into()), ("line", refusal.line().into()), ("meaning", refusal.meaning().into())])
    }
}

impl From<&Part> for Json {
    fn from(part: &Part) -> Json {
        let texts = |texts: &[String]| Json::list(texts.iter().map(String::as_str));
        Json::Object(vec![match part {
            Part::Heading(text) => ("heading", text.as_str().into()),
            Part::Text(text) => ("text", text.as_str().into()),
            Part::List(lines) => ("list", texts(lines)),
            Part::Table(table) => {
                let rows = table.rows.iter().map(|row| texts(row)).collect();
                ("table", Json::Object(vec![("headings", texts(&table.headings)), ("rows", Json::List(rows))]))
            }
            Part::Quote(quote) => {
                let marks = quote.marks.iter().map(|mark| Json::list([mark.start, mark.end])).collect();
                let line = ("line", quote.line.into());
                ("quote", Json::Object(vec![line, ("text", quote.text.as_str().into()), ("marks", Json::List(marks))]))
            }
        }])
    }
}

impl From<&Words> for Json {
    fn from(words: &Words) -> Json {
        Json::Object(vec![("summary", words.summary.as_str().into()), ("parts", Json::list(&words.parts))])
    }
}

/// On one line.
impl Display for Json {
    fn fmt(&self, f: &mut Formatter<'_>) -> fmt::Result {
        match self {
            Json::Null => f.write_str("null"),
            Json::Bool(yes) => write!(f, "{yes}"),
            Json::Number(number) => write!(f, "{number}"),
            Json::Text(text) => quoted(text, f),
            Json::List(values) => {
                f.write_char('[')?;
                for (place, value) in values.iter().enumerate() {
                    f.write_str(if place > 0 { "," } else { "" })?;
                    value.fmt(f)?;
                }
                f.write_char(']')
            }
            Json::Object(fields) => {
                f.write_char('{')?;
                for (place, (name, value)) in fields.iter().enumerate() {
                    write!(f, "{}\"{name}\":{value}", if place > 0 { "," } else { "" })?;
                }
                f.write_char('}')
            }
        }
    }
}

/// A string: what controls a terminal or turns the direction of text is written by its number.
fn quoted(text: &str, f: &mut Formatter<'_>) -> fmt::Result {
    f.write_char('"')?;
    for c in text.chars() {
        match c {
            '"' => f.write_str("\\\"")?,
            '\\' => f.write_str("\\\\")?,
            c if crate::source::is_shown(c) => f.write_char(c)?,
            c => {
                let mut units = [0; 2];
                for unit in c.encode_utf16(&mut units) {
                    write!(f, "\\u{unit:04x}")?;
                }
            }
        }
    }
    f.write_char('"')
}

#[cfg(test)]
mod tests {
    use super::*;

    #[test]
    fn values_are_written_on_one_line() {
        let object =
            Json::Object(vec![("a", Json::list([1_u16, 2])), ("b", Json::Null), ("c", "x\"\\\n\u{1b}é".into()), ("d", true.into())]);
        assert_eq!(object.to_string(), r#"{"a":[1,2],"b":null,"c":"x\"\\\u000a\u001bé","d":true}"#);
    }

    #[test]
    fn a_name_that_is_no_text_has_its_bytes() {
        let json = |name: &[u8]| Json::of_file(OsStr::from_bytes(name), vec![]).to_string();
        assert_eq!(json(b"a\tb"), r#"{"version":1,"file":"a\u0009b","file_bytes":null}"#);
        assert_eq!(json(b"caf\xe9"), r#"{"version":1,"file":"caf\\xe9","file_bytes":"636166e9"}"#);
    }
}
