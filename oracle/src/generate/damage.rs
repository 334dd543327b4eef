//! Files damaged in every way that 01 refuses. What a damage leads to is for the oracle to say: several may fall on one file, and one
//! may hide another.

use crate::law::{LINE, MOST, MOST_BYTES, line_text};
use crate::random::Random;

/// A file as lines, which stay lines of 22 bytes but where a damage of cause 1 is done to the whole.
type Lines = Vec<Vec<u8>>;

/// A damage to one line.
type LineDamage = fn(&mut Random, &mut Lines, usize) -> String;

/// Those that need a fitting line, or can fail to hit, come more often.
const LINE_DAMAGES: [LineDamage; 14] =
    [letter, line_end, field_form, field_form, gap, gap, outside, outside, state, state, twice, twice, clash, clash];

/// Damages an accepted file in one to three ways and says how.
pub fn damage(random: &mut Random, file: Vec<u8>) -> (String, Vec<u8>) {
    let mut lines: Lines = file.chunks(LINE).map(<[u8]>::to_vec).collect();
    let made = match random.between(1, 16) {
        1 => return length(random, file),
        2 => header(random, &mut lines),
        3 => counts(random, &mut lines),
        4 => order(random, &mut lines),
        5 => limit(random, &mut lines),
        6..=13 => {
            let line = some_line(random, &lines);
            random.pick(&LINE_DAMAGES)(random, &mut lines, line)
        }
        14..=15 => {
            // Several causes on one line.
            let line = some_line(random, &lines);
            let one = random.pick(&LINE_DAMAGES)(random, &mut lines, line);
            let two = random.pick(&LINE_DAMAGES)(random, &mut lines, line);
            format!("{one}; {two}")
        }
        _ => {
            // Causes on different lines.
            let mut made = Vec::new();
            for _ in 0..3 {
                let line = some_line(random, &lines);
                made.push(random.pick(&LINE_DAMAGES)(random, &mut lines, line));
            }
            if random.once_in(4) {
                made.push(header(random, &mut lines));
            }
            made.join("; ")
        }
    };
    (made, lines.concat())
}

/// A line, counted from 0: first its letter is drawn, so that short parts of a file are not passed over.
fn some_line(random: &mut Random, lines: &Lines) -> usize {
    let letter = random.pick(b"SUPPLLDDTTT");
    let places: Vec<usize> = (0..lines.len()).filter(|&place| lines[place][0] == letter).collect();
    if places.is_empty() { random.place(lines.len()) } else { random.pick(&places) }
}

/// The number in a field, counted from 0; 0 where there is none.
fn field(line: &[u8], place: usize) -> u32 {
    let text = &line[1 + 5 * place..6 + 5 * place];
    String::from_utf8_lossy(text).trim().parse().unwrap_or(0)
}

fn put_text(line: &mut [u8], place: usize, text: &[u8]) {
    line[1 + 5 * place..6 + 5 * place].copy_from_slice(text);
}

fn put(line: &mut [u8], place: usize, number: u32) {
    put_text(line, place, format!("{:>5}", number.min(99_999)).as_bytes());
}

/// How many fields of a line hold sections, and whether the next one holds a state.
fn section_fields(line: &[u8]) -> (usize, bool) {
    match line[0] {
        b'P' => (2, false),
        b'L' => (2, true),
        b'D' => (3, true),
        b'T' => ((0..4).filter(|&place| field(line, place) != 0).count().max(1), false),
        _ => (0, false),
    }
}

/// The ordered pairs that a line stands over.
fn pairs(line: &[u8]) -> Vec<(u32, u32)> {
    let (one, two, three) = (field(line, 0), field(line, 1), field(line, 2));
    match line[0] {
        b'P' | b'L' => vec![(one, two)],
        b'D' => vec![(one, two), (two, one), (one, three), (three, one)],
        _ => vec![],
    }
}

// ---- cause 1

fn length(random: &mut Random, mut file: Vec<u8>) -> (String, Vec<u8>) {
    let made = match random.between(1, 8) {
        1 => {
            file.clear();
            "no bytes at all".to_string()
        }
        2 => {
            let byte = random.pick(b"\n\r \0S\x1a");
            file.push(byte);
            format!("byte {byte} at the end")
        }
        3 => {
            let fewer = random.between(1, 21) as usize;
            file.truncate(file.len() - fewer);
            format!("{fewer} bytes fewer")
        }
        4 => {
            let place = random.place(file.len());
            file.remove(place);
            format!("byte {place} left out")
        }
        5 => {
            let place = random.place(file.len());
            file.insert(place, b' ');
            format!("a space before byte {place}")
        }
        6 => {
            // Every line feed becomes two bytes.
            file = file.iter().flat_map(|&byte| if byte == b'\n' { vec![b'\r', b'\n'] } else { vec![byte] }).collect();
            "line ends of two bytes".to_string()
        }
        7 => {
            let last = file[file.len() - LINE..].to_vec();
            while file.len() < MOST_BYTES + LINE {
                file.extend(&last);
            }
            format!("{} bytes", file.len())
        }
        _ => {
            let longer = MOST_BYTES + random.between(0, 3) as usize;
            file.resize(longer, b' ');
            format!("{longer} bytes")
        }
    };
    (made, file)
}

// ---- cause 2

fn letter(random: &mut Random, lines: &mut Lines, line: usize) -> String {
    let letter = if random.once_in(6) { random.byte() } else { random.pick(b"SPLDTUspldtRVQEAB ") };
    lines[line][0] = letter;
    format!("letter {:?} on line {}", letter as char, line + 1)
}

fn line_end(random: &mut Random, lines: &mut Lines, line: usize) -> String {
    let byte = random.pick(b"\r \0\t\x0b\xff0");
    lines[line][LINE - 1] = byte;
    format!("byte {byte} at the end of line {}", line + 1)
}

/// A field that is not of the stated form, or is where the letter fills none.
fn field_form(random: &mut Random, lines: &mut Lines, line: usize) -> String {
    let place = random.place(4);
    let number = field(&lines[line], place) % 100;
    let text: Vec<u8> = match random.between(1, 26) {
        1 => b"     ".to_vec(),
        2 => b"\t    ".to_vec(),
        3 => b"    \t".to_vec(),
        4 => format!("{number:05}").into_bytes(),
        5 => format!("  0{number:<2}").into_bytes(),
        6 => format!(" {number:04}").into_bytes(),
        7 => format!("{number:<5}").into_bytes(),
        8 => format!("{number:^5}").into_bytes(),
        9 => format!("1 {number:>3}").into_bytes(),
        10 => format!("{number:>4} ").into_bytes(),
        11 => format!("+{number:>4}").into_bytes(),
        12 => format!("{:>5}", format!("+{number}")).into_bytes(),
        13 => format!("{:>5}", format!("-{number}")).into_bytes(),
        14 => format!("{number:>3}.0").into_bytes(),
        15 => format!("{:>5}", format!("{number}a")).into_bytes(),
        16 => format!("\t{number:>4}").into_bytes(),
        17 => [b"\0\0\0", format!("{number:>2}").as_bytes()].concat(),
        18 => b"   00".to_vec(),
        19 => b"00000".to_vec(),
        20 => b"    0".to_vec(),
        21 => b"    1".to_vec(),
        22 => format!("0 {number:03}").into_bytes(),
        23 => format!("{:>4} ", format!("{number:03}")).into_bytes(),
        24 => format!("-{number:04}").into_bytes(),
        25 => format!("{:>5}", format!("{number:03}")).into_bytes(),
        _ => {
            let mut text = format!("{number:>5}").into_bytes();
            text[random.place(5)] = random.pick(b"\xb2\xd9\xa0/:\n\r ");
            text
        }
    };
    put_text(&mut lines[line], place, &text);
    format!("field {} of line {} is {:?}", place + 1, line + 1, String::from_utf8_lossy(&text))
}

/// One of the first three fields left blank, or one after the last filled: in a T line of a U file a gap, or none.
fn gap(random: &mut Random, lines: &mut Lines, line: usize) -> String {
    let place = random.place(4);
    let number = random.pick(&[1, 2, field(&lines[0], 0)]);
    if random.once_in(2) {
        put_text(&mut lines[line], place, b"     ");
        format!("field {} of line {} is blank", place + 1, line + 1)
    } else {
        put(&mut lines[line], place, number);
        format!("field {} of line {} is {number}", place + 1, line + 1)
    }
}

/// Lines in another order, or the counts of the S line shifted from one part of the file to the next.
fn order(random: &mut Random, lines: &mut Lines) -> String {
    match random.between(1, 3) {
        1 => {
            let (one, two) = (some_line(random, lines), some_line(random, lines));
            lines.swap(one, two);
            format!("lines {} and {} exchanged", one + 1, two + 1)
        }
        2 => {
            let (from, to) = (some_line(random, lines), some_line(random, lines));
            let moved = lines.remove(from);
            lines.insert(to.min(lines.len()), moved);
            format!("line {} moved to {}", from + 1, to + 1)
        }
        _ => {
            let mut places = [1, 2, 3];
            random.shuffle(&mut places);
            let (less, more) = (field(&lines[0], places[0]), field(&lines[0], places[1]));
            put(&mut lines[0], places[0], less.saturating_sub(1));
            put(&mut lines[0], places[1], more + 1);
            format!("S field {} one lower, field {} one higher", places[0] + 1, places[1] + 1)
        }
    }
}

// ---- causes 3 and 4

fn header(random: &mut Random, lines: &mut Lines) -> String {
    let place = random.place(4);
    let now = field(&lines[0], place);
    let over = MOST[place] + 1;
    let number = random.pick(&[over, over, over - 1, 0, 65_536, 65_536 + now, 99_999, 10_000, 600]);
    put(&mut lines[0], place, number);
    format!("S field {} is {number}", place + 1)
}

fn counts(random: &mut Random, lines: &mut Lines) -> String {
    let line = some_line(random, lines);
    match random.between(1, 4) {
        1 => {
            let place = random.between(1, 3) as usize;
            let now = field(&lines[0], place);
            let number = if random.once_in(2) { now + 1 } else { now.saturating_sub(1) };
            put(&mut lines[0], place, number);
            format!("S field {} is {number} and not {now}", place + 1)
        }
        2 => {
            lines.remove(line);
            format!("line {} left out", line + 1)
        }
        3 => {
            let double = lines[line].clone();
            lines.insert(line, double);
            format!("line {} twice", line + 1)
        }
        _ => {
            let more = random.between(1, 3);
            lines.extend((0..more).map(|_| line_text('T', &[1])));
            format!("{more} T lines at the end")
        }
    }
}

/// One part of the file has lines up to its limit, or one more than that, and the S line says so.
fn limit(random: &mut Random, lines: &mut Lines) -> String {
    let (place, letter) = random.pick(&[(2, b'L'), (3, b'T'), (1, b'P')]);
    let wanted = MOST[place] + random.between(0, 1);
    let present = field(&lines[0], place);
    let before: u32 = (1..=place).map(|earlier| field(&lines[0], earlier)).sum();
    let at = 1 + before as usize;
    let sections = field(&lines[0], 0);
    let mut pairs = (1..=sections).flat_map(|from| (1..=sections).map(move |to| (from, to))).filter(|(from, to)| from != to);
    let mut new = Vec::new();
    for _ in present..wanted {
        let (from, to) = pairs.next().unwrap_or((1, 1));
        new.push(match letter {
            b'P' => line_text('P', &[from, to]),
            b'L' => line_text('L', &[from, to, 1]),
            _ => line_text('T', &[1]),
        });
    }
    lines.splice(at..at, new);
    put(&mut lines[0], place, wanted);
    format!("{wanted} {} lines", letter as char)
}

// ---- causes 5, 7, 6, 8

fn outside(random: &mut Random, lines: &mut Lines, line: usize) -> String {
    let sections = field(&lines[0], 0);
    let (fields, _) = section_fields(&lines[line]);
    let place = random.place(fields.max(1));
    let now = field(&lines[line], place);
    let number = random.pick(&[0, sections + 1, sections + 1, sections, 513, 65_536, 65_536 + now, 99_999]);
    put(&mut lines[line], place, number);
    format!("field {} of line {} is {number}", place + 1, line + 1)
}

fn state(random: &mut Random, lines: &mut Lines, line: usize) -> String {
    let (fields, has_state) = section_fields(&lines[line]);
    let place = if has_state { fields } else { random.place(4) };
    let number = random.pick(&[3, 3, 4, 10, 255, 256, 257, 258, 65_536, 65_537, 99_999]);
    put(&mut lines[line], place, number);
    format!("field {} of line {} is {number}", place + 1, line + 1)
}

fn twice(random: &mut Random, lines: &mut Lines, line: usize) -> String {
    let (fields, _) = section_fields(&lines[line]);
    let mut places: Vec<usize> = (0..fields.max(2)).collect();
    random.shuffle(&mut places);
    let number = field(&lines[line], places[0]);
    put(&mut lines[line], places[1], number);
    format!("fields {} and {} of line {} are both {number}", places[0] + 1, places[1] + 1, line + 1)
}

/// The line comes to stand over a pair of another line.
fn clash(random: &mut Random, lines: &mut Lines, line: usize) -> String {
    let others: Vec<usize> = (0..lines.len()).filter(|&other| other != line && !pairs(&lines[other]).is_empty()).collect();
    if others.is_empty() {
        return "no line to clash with".to_string();
    }
    let other = random.pick(&others);
    let (from, to) = random.pick(&pairs(&lines[other]));
    let (one, two) = match (lines[line][0], random.between(1, 4)) {
        (b'D', 1) => (1, 0),
        (b'D', 2) => (0, 2),
        (b'D', 3) => (2, 0),
        _ => (0, 1),
    };
    put(&mut lines[line], one, from);
    put(&mut lines[line], two, to);
    format!("line {} stands over the pair ({from}, {to}) of line {}", line + 1, other + 1)
}
