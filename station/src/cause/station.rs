//! Refusals of a station file.

use judge::Refusal;

use super::{Shown, capitalised, field_name, field_names, first_uneven, quote, station_sections, strange_byte, with_article};
use crate::columns::{byte_words, field, is_blank, line, lines, number, numbers, shown};
use crate::doc::Quote;
use crate::model::{counted, grouped};

/// How many of a line's fields hold sections.
fn section_fields(letter: u8, file: &[u8], text: &[u8]) -> usize {
    match letter {
        b'P' | b'L' => 2,
        b'D' => 3,
        b'T' if file.first() == Some(&b'U') => numbers(text).len(),
        b'T' => 1,
        _ => 0,
    }
}

/// The place of a line's state.
fn state_field(letter: u8) -> usize {
    if letter == b'D' { 4 } else { 3 }
}

/// Shows the cause of a refusal of a station file.
pub fn of_station(refusal: Refusal, file: &[u8]) -> Shown {
    let number = usize::from(refusal.line());
    let text = line(file, number);
    let letter = text.first().copied().unwrap_or(0);
    match refusal.number() {
        1 => length(file).stored(file),
        2 => form(file, number, text, letter).stored(file),
        3 => header_range(file),
        4 => line_count(file),
        5 => section_range(file, number, text, letter),
        6 => state_range(file, number, text, letter),
        7 => section_twice(file, number, text, letter),
        8 => pair_twice(file, number, text, letter),
        10 => Shown::field(file, number, state_field(letter), "State 0: this is the first element that is open."),
        11 => too_many_open(file, number, letter),
        13 => Shown::field(file, number, 2, "This train stands in more than one section, which an S file cannot say."),
        _ => Shown::default(),
    }
}

/// Refusal 1.
fn length(file: &[u8]) -> Shown {
    if file.is_empty() {
        return Shown::note("The file is empty: it has not even its first line.");
    }
    let whole = file.len() / judge::LINE_SIZE;
    let rest = file.len() % judge::LINE_SIZE;
    if rest == 0 {
        return Shown::note(format!(
            "The file has {} in {}; the longest station has {} bytes.",
            counted(file.len(), "byte"),
            counted(whole, "line"),
            grouped(judge::MAX_FILE)
        ));
    }
    let shown = Shown::note(format!(
        "The file has {}: {} of 22 bytes and {} more.",
        counted(file.len(), "byte"),
        counted(whole, "line"),
        counted(rest, "byte")
    ));
    match first_uneven(file) {
        Some((quote, note)) => Shown { quotes: vec![quote], ..shown.also(note) },
        None => shown,
    }
}

/// Refusal 2: the letter first, then the fields from left to right, then the end of the line.
fn form(file: &[u8], number_of_line: usize, text: &[u8], letter: u8) -> Shown {
    let (allowed, place) = allowed_letters(file, number_of_line);
    if !allowed.contains(&letter) {
        let letters: Vec<String> = allowed.iter().map(|&letter| char::from(letter).to_string()).collect();
        let note = format!("The letter here has to be {}, and not {}: {place}.", letters.join(" or "), byte_words(letter));
        return Shown::letter(file, number_of_line, note);
    }
    let long_train = letter == b'T' && file.first() == Some(&b'U');
    let used = if long_train { 4 } else { field_names(letter).len() };
    let mut gap = None;
    for place in 1..=4 {
        let bytes = field(text, place);
        let name = field_name(letter, place);
        let wrong = if long_train && place > 1 && is_blank(bytes) {
            gap = gap.or(Some(place));
            None
        } else if let Some(gap) = gap {
            let note = format!("Field {gap} is empty though field {place} is filled: the sections of a train are filled from the left.");
            return Shown::field(file, number_of_line, gap, note);
        } else if place <= used && is_blank(bytes) {
            Some(format!("{name} is empty, and {} line has to fill it.", with_article(letter)))
        } else if place <= used && number(bytes).is_none() {
            Some(format!("{name} is not of the form of a number: spaces, then digits up to the field's end.{}", strange_byte(bytes)))
        } else if place > used && !is_blank(bytes) {
            let of = if letter == b'T' { String::from("the T line of an S file") } else { format!("{} line", with_article(letter)) };
            Some(format!("Field {place} is not used in {of}: it has to be five spaces.{}", strange_byte(bytes)))
        } else {
            None
        };
        if let Some(note) = wrong {
            return Shown::field(file, number_of_line, place, capitalised(&note));
        }
    }
    let end = judge::LINE_SIZE - 1;
    let note = match text.get(end) {
        Some(&byte) => format!("The line ends with {}, and not with a line feed.", byte_words(byte)),
        None => String::from("The line is not of the stated form."),
    };
    let mark = end..end + 1;
    Shown { quotes: vec![Quote { line: number_of_line, text: shown(text), marks: vec![mark] }], notes: vec![note] }
}

/// The letters that a line may have by the counts of the first line, and why.
fn allowed_letters(file: &[u8], number: usize) -> (&'static [u8], String) {
    if number <= 1 {
        return (b"SU", String::from("a station file begins with S, or with U for long trains"));
    }
    let header = numbers(line(file, 1));
    let count = |place: usize| header.get(place).copied().unwrap_or(0);
    let (plain, elements) = (count(1), count(2));
    let span = |from: usize, to: usize| if from == to { format!("line {from} is") } else { format!("lines {from} to {to} are") };
    if number <= 1 + plain {
        (b"P", format!("by the counts of line 1, {} for the P lines", span(2, 1 + plain)))
    } else if number <= 1 + plain + elements {
        (b"LD", format!("by the counts of line 1, {} for the elements", span(2 + plain, 1 + plain + elements)))
    } else {
        (b"T", format!("by the counts of line 1, {} for the trains", span(2 + plain + elements, 1 + plain + elements + count(3))))
    }
}

/// Refusal 3.
fn header_range(file: &[u8]) -> Shown {
    const RANGES: [(usize, usize); 4] = [(1, judge::MAX_SECTIONS), (0, judge::MAX_PLAIN), (0, judge::MAX_ELEMENTS), (0, judge::MAX_TRAINS)];
    for (place, (number, (least, most))) in numbers(line(file, 1)).into_iter().zip(RANGES).enumerate() {
        if number < least || number > most {
            let name = field_names(b'S')[place];
            let note = format!("The number of {name} is {number}; it has to be {least} to {}.", grouped(most));
            return Shown::field(file, 1, place + 1, note);
        }
    }
    Shown { quotes: vec![quote(file, 1, &[1, 2, 3, 4])], notes: vec![] }
}

/// Refusal 4: the counts, and the one that disagrees with the letters that lines begin with.
fn line_count(file: &[u8]) -> Shown {
    const SORTS: [(&[u8], &str); 3] = [(b"P", "P"), (b"LD", "L or D"), (b"T", "T")];
    let counts: Vec<usize> = numbers(line(file, 1)).into_iter().skip(1).collect();
    let sum: Vec<String> = counts.iter().map(usize::to_string).collect();
    let wanted: usize = 1 + counts.iter().sum::<usize>();
    let note = format!(
        "The counts ask for 1 + {} = {}, and the file has {}.",
        sum.join(" + "),
        counted(wanted, "line"),
        grouped(lines(file).count())
    );
    let mut shown = Shown::note(note);
    let mut fields = Vec::new();
    for (place, (&count, (letters, names))) in counts.iter().zip(SORTS).enumerate() {
        let present = lines(file).skip(1).filter(|text| letters.contains(&text[0])).count();
        if present != count {
            let name = field_name(b'S', place + 2);
            let begin = if present == 1 { "begins" } else { "begin" };
            shown = shown.also(format!("{} is {count}, and {} {begin} with {names}.", capitalised(&name), counted(present, "line")));
            fields.push(place + 2);
        }
    }
    let fields = if fields.is_empty() { vec![2, 3, 4] } else { fields };
    Shown { quotes: vec![quote(file, 1, &fields)], ..shown }
}

/// Refusal 5.
fn section_range(file: &[u8], line_number: usize, text: &[u8], letter: u8) -> Shown {
    let sections = numbers(line(file, 1)).first().copied().unwrap_or(0);
    for (place, number) in numbers(text).into_iter().take(section_fields(letter, file, text)).enumerate() {
        if number < 1 || number > sections {
            let note =
                format!("{} is {number}; this station has {}.", capitalised(&field_name(letter, place + 1)), station_sections(sections));
            return Shown::field(file, line_number, place + 1, note);
        }
    }
    Shown { quotes: vec![quote(file, line_number, &[1, 2, 3, 4])], notes: vec![] }
}

/// Refusal 6.
fn state_range(file: &[u8], line_number: usize, text: &[u8], letter: u8) -> Shown {
    let place = state_field(letter);
    let states = if letter == b'D' { "0 (open), 1 (straight) or 2 (diverted)" } else { "0 (open), 1 (proceed) or 2 (stop)" };
    let note = format!("The state is {}; it has to be {states}.", number(field(text, place)).unwrap_or(0));
    Shown::field(file, line_number, place, note)
}

/// Refusal 7: the second of the first two that are equal.
fn section_twice(file: &[u8], line_number: usize, text: &[u8], letter: u8) -> Shown {
    let named: Vec<usize> = numbers(text).into_iter().take(section_fields(letter, file, text)).collect();
    for (place, section) in named.iter().enumerate() {
        if let Some(first) = named[..place].iter().position(|earlier| earlier == section) {
            let note = format!("Section {section} stands in field {} already.", first + 1);
            return Shown::field(file, line_number, place + 1, note);
        }
    }
    Shown { quotes: vec![quote(file, line_number, &[1, 2, 3, 4])], notes: vec![] }
}

/// The ordered pairs that a line stands over, each with the fields that name it.
fn pairs(text: &[u8]) -> Vec<((usize, usize), [usize; 2])> {
    match (text.first(), numbers(text).as_slice()) {
        (Some(b'P' | b'L'), &[from, to, ..]) => vec![((from, to), [1, 2])],
        (Some(b'D'), &[stem, straight, diverted, ..]) => {
            vec![((stem, straight), [1, 2]), ((straight, stem), [1, 2]), ((stem, diverted), [1, 3]), ((diverted, stem), [1, 3])]
        }
        _ => vec![],
    }
}

/// Refusal 8: the pair, and the earlier line that stands over it. One signal and one turnout may share a pair.
fn pair_twice(file: &[u8], line_number: usize, text: &[u8], letter: u8) -> Shown {
    for (pair, fields) in pairs(text) {
        for (place, earlier) in lines(file).enumerate().take(line_number - 1).skip(1) {
            let shares = matches!((earlier[0], letter), (b'L', b'D') | (b'D', b'L'));
            let found = pairs(earlier).into_iter().find(|(other, _)| *other == pair);
            if let Some((_, others)) = found
                && !shares
            {
                let note = format!("The ordered pair {} to {} stands under line {} already.", pair.0, pair.1, place + 1);
                let quotes = vec![quote(file, line_number, &fields), quote(file, place + 1, &others)];
                return Shown { quotes, notes: vec![note] };
            }
        }
    }
    Shown { quotes: vec![quote(file, line_number, &[1, 2, 3])], notes: vec![] }
}

/// Refusal 11: of the settings question, or of the yes or no, which counts open turnouts only.
fn too_many_open(file: &[u8], line_number: usize, letter: u8) -> Shown {
    let open = |text: &&[u8]| matches!(text[0], b'L' | b'D') && number(field(text, state_field(text[0]))) == Some(0);
    let before: Vec<&[u8]> = lines(file).take(line_number).filter(open).collect();
    let sort = if before.len() == 13 { "element" } else { "turnout" };
    let all = lines(file).filter(open).filter(|text| sort == "element" || text[0] == b'D').count();
    let note = format!("State 0: this is the thirteenth open {sort}, of {all} in the file; at most twelve may be open.");
    Shown::field(file, line_number, state_field(letter), note)
}
