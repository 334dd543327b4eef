//! The converter (02, Item 5): the request in plain Rust, and the comparison of an operation with it on files of both letters, right and damaged,
//! with buffers of every length around the file's.

use judge::ffi::{Filled, Refusal};

use crate::generate;
use crate::law::{self, LINE, Situation, refusal};

/// Converts a file to the letter `wanted`, b'S' or b'U', in a lent buffer.
pub type Operation = fn(wanted: u8, file: &[u8], buffer: &mut [u8]) -> Filled;

/// What came of the calls: refusals by their number, 0 for files that came out.
pub type Outcomes = [u64; 14];

/// So many bytes of guard stand after the lent buffer.
const GUARD: usize = 8;

/// The bytes that come out, or the refusal: the file's own, then 13, then 9.
pub fn wanted(letter: u8, file: &[u8], room: usize) -> Result<Vec<u8>, Refusal> {
    wanted_of(&law::read(file), letter, file, room)
}

/// The same for a file whose situation is known.
fn wanted_of(read: &Result<Situation, Refusal>, letter: u8, file: &[u8], room: usize) -> Result<Vec<u8>, Refusal> {
    let situation = read.as_ref().map_err(|&refusal| refusal)?;
    if letter == b'S' {
        // "giving the line of the first such train"
        for (place, sections) in situation.trains.iter().enumerate() {
            if sections.len() > 1 {
                return Err(refusal(13, 1 + situation.plain.len() + situation.elements.len() + place + 1));
            }
        }
    }
    // "22 bytes a line"
    let lines = 1 + situation.plain.len() + situation.elements.len() + situation.trains.len();
    if room < LINE * lines {
        return Err(refusal(9, 0));
    }
    let mut text = vec![letter];
    text.extend_from_slice(&file[1..]);
    Ok(text)
}

/// The file as it was generated, and with the other letter in front.
pub fn both_letters(file: &[u8]) -> Vec<Vec<u8>> {
    let mut files = vec![file.to_vec()];
    if let Some(&first) = file.first() {
        let mut other = file.to_vec();
        other[0] = if first == b'U' { b'S' } else { b'U' };
        files.push(other);
    }
    files
}

/// One call on a file and its situation, with all memory compared: the bytes that came out, or the refusal's number.
fn call(
    operation: Operation,
    letter: u8,
    (file, read): (&[u8], &Result<Situation, Refusal>),
    room: usize,
) -> Result<Result<Vec<u8>, u16>, String> {
    let held: Vec<u8> = (0..room + GUARD).map(|place| (place * 7 + 1) as u8).collect();
    let mut memory = held.clone();
    let given = operation(letter, file, &mut memory[..room]);
    let expected = wanted_of(read, letter, file, room);
    let text = expected.clone().unwrap_or_default();
    let answer = Filled { refusal: expected.as_ref().err().copied().unwrap_or(Refusal::NONE), length: text.len() };
    if given != answer {
        let first: String = String::from_utf8_lossy(&file[..file.len().min(LINE)]).replace('\n', "\\n");
        return Err(format!("to {} of {first:?}.. with {room} bytes: {given:?} in place of {answer:?}", letter as char));
    }
    if memory[..text.len()] != text[..] || memory[text.len()..] != held[text.len()..] {
        return Err(format!("to {} with {room} bytes: other bytes", letter as char));
    }
    Ok(expected.map_err(|refusal| refusal.number))
}

/// How many calls were compared and what came of them, or the first that differs.
pub fn compare(operation: Operation, cases: u64) -> Result<(u64, Outcomes), String> {
    let mut compared = 0;
    let mut outcomes = [0; 14];
    for index in 0..cases {
        for file in both_letters(&generate::case(index).file) {
            let n = file.len();
            let read = law::read(&file);
            let mut rooms = vec![0, n + LINE];
            rooms.extend(n.saturating_sub(2)..=n + 2);
            if index % 50 == 0 && n <= 20 * LINE {
                rooms = (0..=n + LINE).collect();
            }
            for (letter, other) in [(b'S', b'U'), (b'U', b'S')] {
                for &room in &rooms {
                    let result =
                        call(operation, letter, (&file, &read), room).map_err(|difference| format!("file {index}: {difference}"))?;
                    compared += 1;
                    match result {
                        Err(number) => outcomes[usize::from(number)] += 1,
                        Ok(text) => {
                            outcomes[0] += 1;
                            // "Where the letter changes, there and back gives the original bytes."
                            if file[0] == other {
                                let back = call(operation, other, (&text, &law::read(&text)), n)
                                    .map_err(|difference| format!("file {index}, and back: {difference}"))?;
                                compared += 1;
                                if back != Ok(file.clone()) {
                                    return Err(format!("file {index}: there and back gives {back:?}"));
                                }
                            } else if text != file {
                                return Err(format!("file {index}: the letter stays, and the bytes do not"));
                            }
                        }
                    }
                }
            }
        }
    }
    Ok((compared, outcomes))
}

#[cfg(test)]
mod mutants {
    use super::*;
    use crate::subject::fill;

    const CASES: u64 = 400;

    #[test]
    fn the_request_itself_passes() {
        let (compared, outcomes) = compare(|letter, file, buffer| fill(wanted(letter, file, buffer.len()), buffer), CASES).unwrap();
        assert!(compared > 10_000);
        for number in [0, 1, 2, 5, 7, 8, 9, 13] {
            assert!(outcomes[number] > 0, "refusal {number} does not come");
        }
    }

    #[test]
    fn wrong_converters_are_caught() {
        let second_byte: Operation = |letter, file, buffer| {
            let given = fill(wanted(letter, file, buffer.len()), buffer);
            if given.length > 1 {
                buffer[1] = b'0';
            }
            given
        };
        let nine_first: Operation = |letter, file, buffer| {
            let given = wanted(letter, file, buffer.len());
            let short = buffer.len() < file.len();
            fill(if short && matches!(given, Err(Refusal { number: 13, .. })) { Err(refusal(9, 0)) } else { given }, buffer)
        };
        let last_long: Operation = |letter, file, buffer| {
            let given = wanted(letter, file, buffer.len()).map_err(|refused| {
                let long = law::read(file).ok().and_then(|s| {
                    let last = s.trains.iter().rposition(|sections| sections.len() > 1)?;
                    Some(2 + s.plain.len() + s.elements.len() + last)
                });
                if refused.number == 13 { refusal(13, long.unwrap()) } else { refused }
            });
            fill(given, buffer)
        };
        let thirteen_to_u: Operation = |letter, file, buffer| {
            let given = wanted(letter, file, buffer.len());
            let refused = wanted(b'S', file, usize::MAX);
            fill(if given.is_ok() && matches!(refused, Err(Refusal { number: 13, .. })) { refused } else { given }, buffer)
        };
        let nine_where_changed: Operation = |letter, file, buffer| {
            let given = wanted(letter, file, buffer.len());
            if given == Err(refusal(9, 0)) && file[0] == letter {
                return Filled { refusal: Refusal::NONE, length: file.len() };
            }
            fill(given, buffer)
        };
        for (name, operation) in [
            ("second byte", second_byte),
            ("9 first", nine_first),
            ("last long train", last_long),
            ("13 on the way to U", thirteen_to_u),
            ("9 where the letter changes", nine_where_changed),
        ] {
            assert!(compare(operation, CASES).is_err(), "{name} passes");
        }
    }
}
