//! The columns of a line, for display: a letter, four fields of 5 bytes, a line feed.

use std::ops::Range;

use judge::LINE_SIZE;

/// The columns of a field, numbered from 1 to 4.
pub fn columns(field: usize) -> Range<usize> {
    5 * field - 4..5 * field + 1
}

/// The bytes of a field, numbered from 1; fewer where the line is cut.
pub fn field(line: &[u8], number: usize) -> &[u8] {
    let columns = columns(number);
    line.get(columns.start..columns.end.min(line.len())).unwrap_or_default()
}

pub fn is_blank(field: &[u8]) -> bool {
    field == b"     "
}

/// The number of a filled field of a station file: spaces, then digits.
pub fn number(field: &[u8]) -> Option<usize> {
    let digits = field.trim_ascii_start();
    let spaces = &field[..field.len() - digits.len()];
    if field.len() != 5 || digits.is_empty() || spaces.iter().any(|&byte| byte != b' ') || !digits.iter().all(u8::is_ascii_digit) {
        return None;
    }
    Some(digits.iter().fold(0, |number, digit| 10 * number + usize::from(digit - b'0')))
}

/// The number of a filled field of a route file or a log: without leading zeros.
pub fn old_number(field: &[u8]) -> Option<usize> {
    number(field).filter(|number| format!("{number:>5}").as_bytes() == field)
}

/// The numbers of the filled fields, from the left up to the first that is none.
pub fn numbers(line: &[u8]) -> Vec<usize> {
    (1..=4).map_while(|place| number(field(line, place))).collect()
}

/// The lines of a file, 22 bytes each, the last one perhaps cut.
pub fn lines(file: &[u8]) -> impl Iterator<Item = &[u8]> {
    file.chunks(LINE_SIZE)
}

/// A line counted from 1; empty where there is none.
pub fn line(file: &[u8], number: usize) -> &[u8] {
    lines(file).nth(number.wrapping_sub(1)).unwrap_or_default()
}

/// Bytes as text, one character each; what cannot be printed is shown as `?`. The line feed at the end of a line is left out.
pub fn shown(line: &[u8]) -> String {
    let text = match line {
        [text @ .., b'\n'] => text,
        _ => line,
    };
    text.iter().map(|&byte| if (b' '..=b'~').contains(&byte) { char::from(byte) } else { '?' }).collect()
}

/// A byte by its name.
pub fn byte_words(byte: u8) -> String {
    match byte {
        0 => String::from("a zero byte"),
        b'\t' => String::from("a tab"),
        b'\n' => String::from("a line feed"),
        b'\r' => String::from("a carriage return"),
        b' ' => String::from("a space"),
        b'!'..=b'~' => format!("\"{}\"", char::from(byte)),
        _ => format!("byte {byte}"),
    }
}

#[cfg(test)]
mod tests {
    use super::*;

    #[test]
    fn fields_and_their_numbers() {
        let line = b"D    2   03    4    1\n";
        assert_eq!(numbers(line), [2, 3, 4, 1]);
        assert_eq!(columns(1), 1..6);
        assert_eq!(columns(4), 16..21);
        assert_eq!(old_number(field(line, 2)), None);
        assert_eq!(old_number(field(line, 4)), Some(1));
        for wrong in [&b"     "[..], b"1    ", b"  1 2", b"   -1", b"\t   1", b"  1", b""] {
            assert_eq!(number(wrong), None);
        }
        assert_eq!(field(b"D    2", 2), b"");
    }

    #[test]
    fn what_cannot_be_printed_has_a_place_too() {
        assert_eq!(shown(b"P\t\xff 1\n"), "P?? 1");
        assert_eq!(byte_words(b'\r'), "a carriage return");
        assert_eq!(byte_words(b'x'), "\"x\"");
    }
}
