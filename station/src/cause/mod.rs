//! Where the cause of a refusal stands: the field of the line that the library names, for display. The number and the line are the library's; what is
//! found here only says which part of the line to look at.

mod log;
mod routes;
mod station;

use judge::Refusal;

use crate::columns::{byte_words, columns, field, is_blank, line, number, old_number, shown};
use crate::doc::Quote;
use crate::encoding;
use crate::model::{counted, lines_named, listed};

pub use log::of_log;
pub use routes::of_routes;
pub use station::of_station;

/// The lines of a file that show the cause, the one that was refused first, and the cause in words.
#[derive(Clone, Debug, Default, PartialEq, Eq)]
pub struct Shown {
    pub quotes: Vec<Quote>,
    pub notes: Vec<String>,
}

impl Shown {
    fn note(text: impl Into<String>) -> Shown {
        Shown { quotes: vec![], notes: vec![text.into()] }
    }

    /// A field of a line, numbered from 1, and what is the matter with it.
    fn field(file: &[u8], number: usize, place: usize, note: impl Into<String>) -> Shown {
        Shown { quotes: vec![quote(file, number, &[place])], notes: vec![note.into()] }
    }

    /// The letter of a line.
    fn letter(file: &[u8], number: usize, note: impl Into<String>) -> Shown {
        let mark = 0..1;
        Shown { quotes: vec![Quote { line: number, text: shown(line(file, number)), marks: vec![mark] }], notes: vec![note.into()] }
    }

    fn also(mut self, note: impl Into<String>) -> Shown {
        self.notes.push(note.into());
        self
    }

    /// With what is unusual in the way in which the file is stored.
    fn stored(mut self, file: &[u8]) -> Shown {
        self.notes.extend(encoding::notes(file));
        self
    }
}

/// A line with marks under some of its fields, numbered from 1.
fn quote(file: &[u8], number: usize, fields: &[usize]) -> Quote {
    Quote { line: number, text: shown(line(file, number)), marks: fields.iter().map(|&place| columns(place)).collect() }
}

/// What the fields of a letter are called; those past the list are unused.
fn field_names(letter: u8) -> &'static [&'static str] {
    match letter {
        b'S' | b'U' => &["sections", "P lines", "elements", "trains"],
        b'P' => &["from", "to"],
        b'L' => &["from", "to", "state"],
        b'D' => &["stem", "straight leg", "diverted leg", "state"],
        b'T' => &["section"],
        b'R' => &["route", "start signal", "number of sections", "number of turnouts"],
        b'K' => &["section"],
        b'W' => &["element", "state"],
        b'C' => &["candidate", "question", "sequence", "answer"],
        _ => &[],
    }
}

fn field_name(letter: u8, place: usize) -> String {
    match field_names(letter).get(place - 1) {
        Some(name) => format!("field {place} ({name})"),
        None => format!("field {place}"),
    }
}

/// The first line, by line feeds, that has not 22 bytes.
fn first_uneven(file: &[u8]) -> Option<(Quote, String)> {
    let last = judge::LINE_SIZE - 1;
    let mut start = 0;
    for number in 1.. {
        let rest = file.get(start..).filter(|rest| !rest.is_empty())?;
        let end = rest.iter().position(|&byte| byte == b'\n');
        let text = &rest[..end.unwrap_or(rest.len())];
        let ended = if end.is_some() { "" } else { " and no line feed at its end" };
        if text.len() != last || end.is_none() {
            let note = if end.is_none() && text.len() == last {
                format!("Line {number} has no line feed at its end.")
            } else {
                format!("Line {number} has {} before its line feed, and not 21{ended}.", counted(text.len(), "byte"))
            };
            let most = 60;
            let mark = match encoding::mark(text) {
                Some(mark) if number == 1 => 0..mark.len(),
                _ if text.len() > last => last..text.len().min(most),
                _ => text.len()..last.max(text.len() + 1),
            };
            return Some((Quote { line: number, text: shown(&text[..text.len().min(most)]), marks: vec![mark] }, note));
        }
        start += text.len() + 1;
    }
    None
}

/// "an L", "a D"
fn with_article(letter: u8) -> String {
    let article = if b"LRS".contains(&letter) { "an" } else { "a" };
    format!("{article} {}", char::from(letter))
}

/// The text with a capital letter at its start.
pub fn capitalised(text: &str) -> String {
    let mut letters = text.chars();
    letters.next().map(|first| first.to_uppercase().chain(letters).collect()).unwrap_or_default()
}

/// Names the first byte of a field that is neither a digit nor a space.
fn strange_byte(bytes: &[u8]) -> String {
    match bytes.iter().position(|byte| !byte.is_ascii_digit() && *byte != b' ') {
        Some(place) => format!(" Its byte {} is {}.", place + 1, byte_words(bytes[place])),
        None => String::new(),
    }
}

/// The sections of a station: "sections 1 to 5".
pub fn station_sections(sections: usize) -> String {
    if sections == 1 { String::from("section 1 alone") } else { format!("sections 1 to {sections}") }
}

/// The first field of a line that has not the form of route files and logs, where numbers have no leading zeros.
fn old_form(file: &[u8], line_number: usize, text: &[u8], letter: u8) -> Option<Shown> {
    let used = field_names(letter).len();
    for place in 1..=4 {
        let bytes = field(text, place);
        let name = capitalised(&field_name(letter, place));
        let note = if place > used {
            if is_blank(bytes) {
                continue;
            }
            format!("Field {place} is not used in {} line: it has to be five spaces.{}", with_article(letter), strange_byte(bytes))
        } else if is_blank(bytes) {
            format!("{name} is empty.")
        } else if number(bytes).is_none() {
            format!("{name} is not of the form of a number: spaces, then digits up to the field's end.{}", strange_byte(bytes))
        } else if old_number(bytes).is_none() {
            format!("{name} has a leading zero, which only station files may have.")
        } else {
            continue;
        };
        return Some(Shown::field(file, line_number, place, note));
    }
    let end = judge::LINE_SIZE - 1;
    match text.get(end) {
        Some(b'\n') => None,
        Some(&byte) => {
            let note = format!("The line ends with {}, and not with a line feed.", byte_words(byte));
            let mark = end..end + 1;
            Some(Shown { quotes: vec![Quote { line: line_number, text: shown(text), marks: vec![mark] }], notes: vec![note] })
        }
        None => None,
    }
}

/// Shows refusal 12 of a drawing: which train is not there.
pub fn of_drawing(trains: [u16; 2], present: usize) -> Shown {
    let missing: Vec<u16> = trains.into_iter().filter(|&train| train == 0 || usize::from(train) > present).collect();
    let has = match present {
        0 => String::from("no train"),
        1 => String::from("train 1 alone"),
        _ => format!("trains 1 to {present}"),
    };
    Shown::note(format!("The drawing is of train {}; the station has {has}.", listed(&missing)))
}

/// "line 7", or that the cause belongs to no line.
pub fn where_found(refusal: Refusal) -> String {
    match (refusal.line(), refusal.number()) {
        (0, _) => String::from("it belongs to no line"),
        (place, 18) => format!("record {place}"),
        (place, _) => lines_named(&[usize::from(place)]),
    }
}
