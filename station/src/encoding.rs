//! How a file is stored, where that is not as the judge reads it: what editors and other systems do to a file, in words.

use crate::columns::columns;

const UTF_8: &[u8] = b"\xef\xbb\xbf";

/// The byte order mark that a file begins with.
pub fn mark(file: &[u8]) -> Option<&'static [u8]> {
    [UTF_8, b"\xff\xfe", b"\xfe\xff"].into_iter().find(|mark| file.starts_with(mark))
}

/// Whether a file is UTF-16: it begins with a byte order mark of that, or every other byte of its start is zero.
fn is_wide(file: &[u8]) -> bool {
    const LOOKED_AT: usize = 44;
    let start = &file[..file.len().min(LOOKED_AT)];
    let zeros = |first: usize| start.iter().skip(first).step_by(2).all(|&byte| byte == 0);
    mark(file).is_some_and(|mark| mark != UTF_8) || (start.len() > 2 && start.iter().any(|&byte| byte != 0) && (zeros(0) || zeros(1)))
}

/// Why a text that may begin with the mark of UTF-8 cannot be read.
pub fn of_text(file: &[u8]) -> Option<&'static str> {
    is_wide(file).then_some("The file is UTF-16, two bytes a character: save it as plain text, ASCII or UTF-8.")
}

/// What is unusual in the way in which a file of 22-byte lines is stored.
pub fn notes(file: &[u8]) -> Vec<String> {
    if let Some(note) = of_text(file) {
        return vec![String::from(note)];
    }
    let mut notes = Vec::new();
    if mark(file) == Some(UTF_8) {
        notes.push(String::from(
            "The file begins with the byte order mark of UTF-8, three bytes: save it as ASCII, or as UTF-8 without the mark.",
        ));
    }
    let lines: Vec<&[u8]> = file.strip_prefix(UTF_8).unwrap_or(file).split_inclusive(|&byte| byte == b'\n').collect();
    let ends: Vec<usize> = (0..lines.len()).filter(|&place| lines[place].ends_with(b"\r\n")).collect();
    if let Some(first) = ends.first() {
        let which = match ends.len() {
            1 => format!("Line {} ends", first + 1),
            some if some < lines.len() => format!("{some} of {} lines end", lines.len()),
            _ => String::from("Each line ends"),
        };
        notes.push(format!("{which} with a carriage return and a line feed, as Windows has it: a line ends with the line feed alone."));
    }
    if let Some(place) = lines.iter().position(|line| line.contains(&b'\t')) {
        notes.push(format!("Line {} has a tab: fields are filled with spaces alone.", place + 1));
    }
    if let Some(place) = lines.iter().position(|line| line.ends_with(b"\n") && is_stripped(without_end(line))) {
        notes.push(format!(
            "The spaces at the end of line {} are missing, which some editors take away: each line has 21 characters before its line feed.",
            place + 1
        ));
    }
    notes
}

/// A line without its end.
fn without_end(line: &[u8]) -> &[u8] {
    let text = line.strip_suffix(b"\n").unwrap_or(line);
    text.strip_suffix(b"\r").unwrap_or(text)
}

/// Whether a line is a letter and filled fields, and the spaces of its unused fields are not there, or not all.
fn is_stripped(text: &[u8]) -> bool {
    let end = columns(4).end;
    text.first().is_some_and(u8::is_ascii_uppercase)
        && text.len() < end
        && (1..=4).any(|place| columns(place).start == text.trim_ascii_end().len())
        && text[1..].iter().all(|byte| byte.is_ascii_digit() || *byte == b' ')
}

#[cfg(test)]
mod tests {
    use super::*;

    const FILE: &str = "S    2    1    0    1\nP    1    2          \nT    1               \n";

    fn told(file: &[u8]) -> String {
        notes(file).join(" ")
    }

    #[test]
    fn each_way_of_storing_is_named() {
        assert_eq!(told(FILE.as_bytes()), "");
        assert!(told(&[b"\xef\xbb\xbf", FILE.as_bytes()].concat()).contains("the byte order mark of UTF-8"));
        let wide: Vec<u8> = FILE.encode_utf16().flat_map(u16::to_le_bytes).collect();
        assert!(told(&wide).contains("UTF-16"));
        assert!(told(&[b"\xff\xfe", wide.as_slice()].concat()).contains("UTF-16"));
        let big: Vec<u8> = FILE.encode_utf16().flat_map(u16::to_be_bytes).collect();
        assert!(told(&[b"\xfe\xff", big.as_slice()].concat()).contains("UTF-16"));
        assert!(told(FILE.replace('\n', "\r\n").as_bytes()).starts_with("Each line ends with a carriage return and a line feed"));
        assert!(told(FILE.replacen('\n', "\r\n", 1).as_bytes()).starts_with("Line 1 ends with a carriage return"));
        assert!(told(FILE.replacen('\n', "\r\n", 2).as_bytes()).starts_with("2 of 3 lines end with a carriage return"));
        assert!(told(FILE.replace("P    1", "P\t1").as_bytes()).starts_with("Line 2 has a tab"));
        let stripped: String = FILE.lines().map(|line| format!("{}\n", line.trim_end())).collect();
        assert!(told(stripped.as_bytes()).starts_with("The spaces at the end of line 2 are missing"));
        for odd in [&b""[..], b"\0", b"\0\0\0\0", b"x", b"S", b"\xef\xbb\xbf", b"\r\n"] {
            let _ = notes(odd);
        }
    }
}
