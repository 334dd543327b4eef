//! The standing answers of a log (document 02, item 8): what the paper says, in plain Rust, logs of every class, and the comparison.

use std::collections::{BTreeMap, BTreeSet};

use judge::ffi::{Filled, Refusal};

use crate::compare::{Difference, Tally, filled, lent_bytes};
use crate::random::Random;

const LINE: usize = 22;
pub const MOST_LINES: usize = 1000;

/// A line of the log: candidate, question, sequence, answer.
#[derive(Clone, Copy, Debug, PartialEq, Eq)]
pub struct Sent {
    pub candidate: u32,
    pub question: u32,
    pub sequence: u32,
    pub answer: u32,
}

// ---- what the paper says

/// The number of a field: right-justified, spaces before it, no leading zero.
fn number(field: &[u8]) -> Option<u32> {
    let digits = std::str::from_utf8(field).ok()?.trim_start_matches(' ');
    let plain = !digits.is_empty() && digits.bytes().all(|byte| byte.is_ascii_digit());
    if !plain || (digits.len() > 1 && digits.starts_with('0')) { None } else { digits.parse().ok() }
}

/// What a line says, if it is of the form and in its ranges.
fn line(bytes: &[u8]) -> Option<Sent> {
    if bytes[0] != b'C' || bytes[21] != b'\n' {
        return None;
    }
    let [candidate, question, sequence, answer] =
        [number(&bytes[1..6])?, number(&bytes[6..11])?, number(&bytes[11..16])?, number(&bytes[16..21])?];
    let ranges = (1..=9999).contains(&candidate) && (1..=99).contains(&question) && (1..=99_999).contains(&sequence) && answer <= 4097;
    ranges.then_some(Sent { candidate, question, sequence, answer })
}

/// The lines of a log that is not refused.
fn lines(log: &[u8]) -> Result<Vec<Sent>, Refusal> {
    if !log.len().is_multiple_of(LINE) || log.len() / LINE > MOST_LINES {
        return Err(Refusal { number: 16, line: 0 });
    }
    let mut seen = BTreeSet::new();
    let mut sent = vec![];
    for (place, bytes) in log.chunks(LINE).enumerate() {
        let refusal = |number| Refusal { number, line: place as u16 + 1 };
        let line = line(bytes).ok_or(refusal(16))?;
        if !seen.insert((line.candidate, line.question, line.sequence)) {
            return Err(refusal(17));
        }
        sent.push(line);
    }
    Ok(sent)
}

/// The bytes of a line; fields of more than five digits make it longer.
pub fn text(sent: Sent) -> Vec<u8> {
    format!("C{:5}{:5}{:5}{:5}\n", sent.candidate, sent.question, sent.sequence, sent.answer).into_bytes()
}

/// The standing answers as they come out, or the refusal of the log.
pub fn standing(log: &[u8]) -> Result<Vec<u8>, Refusal> {
    let mut highest: BTreeMap<(u32, u32), Sent> = BTreeMap::new();
    for sent in lines(log)? {
        let kept = highest.entry((sent.candidate, sent.question)).or_insert(sent);
        if kept.sequence < sent.sequence {
            *kept = sent;
        }
    }
    Ok(highest.into_values().filter(|sent| sent.answer != 0).flat_map(text).collect())
}

// ---- logs

/// A log without a cause of refusal: few candidates and questions, so that most are answered again, each sequence once, in any order.
pub fn log(random: &mut Random, lines: usize) -> Vec<Sent> {
    let mut used = BTreeSet::new();
    let mut log = vec![];
    let few = random.once_in(2);
    let near = random.once_in(3);
    while log.len() < lines {
        let candidate = if few { random.pick(&[1, 2, 9, 10, 9998, 9999]) } else { random.between(1, 9999) };
        let question = if few { random.pick(&[1, 2, 10, 99]) } else { random.between(1, 99) };
        let sequence = match (near, random.between(1, 3)) {
            (true, _) => random.between(1, 3 + lines as u32),
            (false, 1) => random.pick(&[1, 99_999]),
            (false, _) => random.between(1, 99_999),
        };
        if !used.insert((candidate, question, sequence)) {
            continue;
        }
        let answer = match random.between(1, 6) {
            1 | 2 => 0,
            3 => random.pick(&[1, 2, 4096, 4097]),
            _ => random.between(0, 4097),
        };
        log.push(Sent { candidate, question, sequence, answer });
    }
    log
}

fn bytes_of(log: &[Sent]) -> Vec<u8> {
    log.iter().copied().flat_map(text).collect()
}

/// Puts bytes in the place of others.
fn put(bytes: &mut [u8], at: usize, new: &[u8]) {
    bytes[at..at + new.len()].copy_from_slice(new);
}

/// Damages a log in one of the ways that the paper refuses, or in one that it may well accept.
fn damage(random: &mut Random, bytes: &mut Vec<u8>) {
    let count = bytes.len() / LINE;
    if count == 0 {
        bytes.extend((0..random.between(0, 23)).map(|_| b' '));
        return;
    }
    let place = random.place(count) * LINE;
    let field = place + 1 + 5 * random.place(4);
    match random.between(1, 13) {
        // Cut, or with something after its last line.
        1 => bytes.truncate(bytes.len() - random.between(1, 21) as usize),
        2 => bytes.extend((0..random.between(1, 22)).map(|_| random.byte())),
        3 => bytes[place] = random.pick(b"SPLDTcE\0 "),
        4 => bytes[place + 21] = random.pick(b"\r \0C"),
        // Just outside a range, or at its end.
        5 => {
            let (at, new): (usize, &[u8]) = random.pick(&[
                (1, b"    0"),
                (1, b"10000"),
                (1, b" 9999"),
                (6, b"    0"),
                (6, b"  100"),
                (6, b"   99"),
                (11, b"    0"),
                (11, b"99999"),
                (16, b" 4098"),
                (16, b" 4097"),
                (16, b"99999"),
            ]);
            put(bytes, place + at, new);
        }
        // Forms of a field.
        6 => put(
            bytes,
            field,
            random.pick(&[b"00001", b"   01", b"    +", b"   -1", b"1    ", b"  1 2", b"     ", b"   1a", b"\t   1", b"   1.", b"   00"]),
        ),
        7 => bytes[field + random.place(5)] = random.byte(),
        // A sequence again: the same line, or another answer, at any place.
        8 | 9 => {
            let mut again = bytes[place..place + LINE].to_vec();
            if random.once_in(2) {
                put(&mut again, 16, random.pick(&[b"    0", b"    1", b" 4097"]));
            }
            let at = random.place(count + 1) * LINE;
            bytes.splice(at..at, again);
        }
        10 => {
            let other = random.place(count) * LINE;
            let fields = bytes[other + 1..other + 16].to_vec();
            put(bytes, place + 1, &fields);
        }
        11 => {
            let other = random.place(count) * LINE;
            let fields = bytes[other + 1..other + 11].to_vec();
            put(bytes, place + 1, &fields);
        }
        12 => put(bytes, place + 16, b"    0"),
        _ => {
            bytes.remove(random.place(bytes.len()));
        }
    }
}

/// The bytes of log n, which are the same in every run.
fn case(index: u64, random: &mut Random) -> Vec<u8> {
    let lines = match index % 400 {
        0 => MOST_LINES,
        1 => MOST_LINES + 1,
        2 => MOST_LINES - 1,
        3..=8 => 1 + random.place(MOST_LINES),
        9..=99 => 1 + random.place(60),
        _ => random.place(9),
    };
    let mut bytes = bytes_of(&log(random, lines));
    for _ in 0..random.pick(&[0, 0, 1, 1, 2, 3]) {
        damage(random, &mut bytes);
    }
    bytes
}

// ---- the comparison

/// The operation: the log, and the lent buffer.
pub type Operation<'a> = &'a dyn Fn(&[u8], &mut [u8]) -> Filled;

/// Compares the operation with the paper on so many logs: how many comparisons were made, or the first difference.
pub fn compare_answers(operation: Operation, logs: u64) -> Result<u64, Difference> {
    let mut tally = Tally::default();
    for index in 0..logs {
        let mut random = Random::new(!index);
        let mut bytes = case(index, &mut random);
        compare_log(operation, &bytes, &mut random, &mut tally).map_err(|difference| format!("log {index}: {difference}"))?;
        // The same lines in another order.
        if lines(&bytes).is_ok() {
            let mut rows: Vec<Vec<u8>> = bytes.chunks(LINE).map(<[u8]>::to_vec).collect();
            random.shuffle(&mut rows);
            let wanted = standing(&bytes);
            bytes = rows.concat();
            tally.same("the oracle on the lines in another order", standing(&bytes), wanted)?;
            compare_log(operation, &bytes, &mut random, &mut tally)
                .map_err(|difference| format!("log {index}, another order: {difference}"))?;
        }
    }
    Ok(tally.comparisons)
}

fn compare_log(operation: Operation, log: &[u8], random: &mut Random, tally: &mut Tally) -> Result<(), Difference> {
    let wanted = standing(log);
    let exact = wanted.as_ref().map_or(log.len(), Vec::len);
    let rooms: Vec<usize> = if exact <= 3 * LINE {
        (0..=exact + LINE + 1).collect()
    } else {
        vec![0, exact - LINE, exact - 1, exact, exact + 1, log.len(), exact + 1 + random.place(60)]
    };
    for room in rooms {
        let handed = log.to_vec();
        let mut lent = lent_bytes(random, room);
        let given = operation(&handed, lent.slice());
        let (answer, start) = filled(&wanted, room);
        let called = |difference| format!("{room} bytes lent: {difference}");
        tally.same("standing answers", given, answer).map_err(called)?;
        lent.check(tally, "standing answers", start).map_err(called)?;
        tally.same("the log afterwards", handed == log, true).map_err(called)?;
    }
    Ok(())
}

#[cfg(test)]
#[path = "answers_mutants.rs"]
mod mutants;
