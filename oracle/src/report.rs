//! The session report (document 02, item 9): what the paper says, in plain Rust, lists of every class, and the comparison.

use std::collections::BTreeMap;

use judge::ffi::{Filled, Mark, Refusal};

use crate::compare::{Difference, Tally, filled, lent_bytes};
use crate::random::Random;

const LINE: usize = 22;
pub const MOST_RECORDS: usize = 999;

// ---- what the paper says

fn right(mark: &Mark) -> bool {
    (1..=9999).contains(&mark.candidate) && (1..=99).contains(&mark.question) && mark.gained <= mark.possible && mark.possible <= 100
}

/// A line in the columns of the station file: a letter, right-justified numbers, and spaces up to the line feed.
fn line(letter: char, numbers: &[u64]) -> Vec<u8> {
    let fields: String = numbers.iter().map(|number| format!("{number:5}")).collect();
    format!("{letter}{fields:20}\n").into_bytes()
}

/// The report, or the refusal of the list.
pub fn report(marks: &[Mark]) -> Result<Vec<u8>, Refusal> {
    if marks.len() > MOST_RECORDS {
        return Err(Refusal { number: 19, line: 0 });
    }
    if let Some(place) = marks.iter().position(|mark| !right(mark)) {
        return Err(Refusal { number: 18, line: place as u16 + 1 });
    }
    let mut sums: BTreeMap<u16, [u64; 2]> = BTreeMap::new();
    for mark in marks {
        let [gained, possible] = sums.entry(mark.candidate).or_default();
        *gained += u64::from(mark.gained);
        *possible += u64::from(mark.possible);
    }
    let mut text: Vec<u8> =
        sums.iter().flat_map(|(&candidate, &[gained, possible])| line('M', &[candidate.into(), gained, possible])).collect();
    let session = |what: fn(&Mark) -> u16| marks.iter().map(|mark| u64::from(what(mark))).sum();
    text.extend(line('Z', &[session(|mark| mark.gained), session(|mark| mark.possible)]));
    Ok(text)
}

// ---- lists

/// So many records without a cause of refusal: of one candidate, of few, of any, or each of another.
pub fn list(random: &mut Random, records: usize) -> Vec<Mark> {
    let candidates = random.between(1, 4);
    let one = random.pick(&[1, 2, 9, 10, 99, 100, 999, 1000, 9998, 9999]);
    // Steps that have no factor in common with 9999 reach every candidate before one comes again.
    let (start, step) = (random.place(9999), random.pick(&[1, 2, 5, 4999, 9997, 9998]));
    let full = random.once_in(4);
    (0..records)
        .map(|place| {
            let candidate = match candidates {
                1 => one,
                2 => random.pick(&[1, 2, 10, 9998, 9999]),
                3 => random.between(1, 9999) as u16,
                _ => 1 + ((start + place * step) % 9999) as u16,
            };
            let any = [100, 99].map(|most| random.between(1, most) as u16);
            let possible = if full { 100 } else { random.pick(&[0, 1, 9, 10, 99, 100, any[0], any[0]]) };
            let some = random.between(0, possible.into()) as u16;
            let gained = if full { possible } else { random.pick(&[0, possible, some, some]) };
            Mark { candidate, question: random.pick(&[1, 99, any[1]]), gained, possible }
        })
        .collect()
}

/// Gives a record a value at an edge of a range, or any other: many are refused, some are not.
fn damage(random: &mut Random, mark: &mut Mark) {
    let edges = [0, 1, 2, 98, 99, 100, 101, 127, 128, 255, 256, 9998, 9999, 10_000, 16_383, 16_384, 32_767, 32_768, 65_534, u16::MAX];
    let value = if random.once_in(4) { random.number() as u16 } else { random.pick(&edges) };
    match random.between(1, 7) {
        1 => mark.candidate = value,
        2 => mark.question = value,
        3 => mark.gained = value,
        4 => mark.possible = value,
        5 => mark.gained = mark.possible.wrapping_add(1),
        6 => (mark.gained, mark.possible) = (value, value),
        _ => *mark = Mark { candidate: value, question: value, gained: value, possible: value },
    }
}

/// List n, which is the same in every run.
fn case(index: u64, random: &mut Random) -> Vec<Mark> {
    let records = match index % 200 {
        0 => MOST_RECORDS,
        1 => MOST_RECORDS + 1,
        2 => MOST_RECORDS - 1,
        3 => MOST_RECORDS + random.place(3000),
        4..=8 => random.place(MOST_RECORDS),
        9..=60 => random.place(60),
        _ => random.place(8),
    };
    let mut marks = list(random, records);
    // Half of all lists have wrong records, the last among them more often than another.
    for _ in 0..random.pick(&[0, 0, 0, 1, 1, 2]) {
        if records > 0 {
            let place = if random.once_in(4) { records - 1 } else { random.place(records) };
            damage(random, &mut marks[place]);
        }
    }
    marks
}

// ---- the comparison

/// The operation: the records, and the lent buffer.
pub type Operation<'a> = &'a dyn Fn(&[Mark], &mut [u8]) -> Filled;

/// Compares the operation with the paper on so many lists: how many comparisons were made, or the first difference.
pub fn compare_reports(operation: Operation, lists: u64) -> Result<u64, Difference> {
    let mut tally = Tally::default();
    for index in 0..lists {
        let random = &mut Random::new(!index);
        let mut marks = case(index, random);
        let rooms = rooms(&marks, random);
        compare_list(operation, &marks, &rooms, random, &mut tally).map_err(|difference| format!("list {index}: {difference}"))?;
        // The same records in another order.
        if let Ok(wanted) = report(&marks) {
            random.shuffle(&mut marks);
            let rooms = [wanted.len(), wanted.len() - 1];
            tally.same("the oracle on the records in another order", report(&marks), Ok(wanted))?;
            compare_list(operation, &marks, &rooms, random, &mut tally)
                .map_err(|difference| format!("list {index}, another order: {difference}"))?;
        }
    }
    // Every field at every value, the others at the ends of their ranges.
    let random = &mut Random::new(9);
    for value in 0..=u16::MAX {
        let [one, other] = [
            Mark { candidate: 1, question: 1, gained: 0, possible: 0 },
            Mark { candidate: 9999, question: 99, gained: 100, possible: 100 },
        ];
        let mark = if value % 2 == 0 { one } else { other };
        let fields = [
            Mark { candidate: value, ..mark },
            Mark { question: value, ..mark },
            Mark { gained: value, ..other },
            Mark { possible: value, ..one },
            Mark { gained: value, possible: value, ..mark },
        ];
        for wrong in fields {
            compare_list(operation, &[other, wrong], &[5 * LINE], random, &mut tally)?;
        }
    }
    Ok(tally.comparisons)
}

/// Lengths of the lent buffer: every one around a short report, those around a long one.
fn rooms(marks: &[Mark], random: &mut Random) -> Vec<usize> {
    let exact = report(marks).map_or(2 * LINE, |text| text.len());
    if exact <= 4 * LINE {
        (0..=exact + LINE + 1).collect()
    } else {
        let around = (exact - LINE - 1..=exact + LINE + 1).step_by(if marks.len() > 60 { 11 } else { 1 });
        around.chain([0, LINE, exact - 1, exact, exact + 1, exact + random.place(60)]).collect()
    }
}

fn compare_list(operation: Operation, marks: &[Mark], rooms: &[usize], random: &mut Random, tally: &mut Tally) -> Result<(), Difference> {
    let wanted = report(marks);
    for &room in rooms {
        let handed = marks.to_vec();
        let mut lent = lent_bytes(random, room);
        let given = operation(&handed, lent.slice());
        let (answer, start) = filled(&wanted, room);
        let what = "the report";
        let few = &marks[..marks.len().min(4)];
        let called = |difference| format!("{} records, {few:?} first, {room} bytes lent: {difference}", marks.len());
        tally.same(what, given, answer).map_err(called)?;
        lent.check(tally, what, start).map_err(called)?;
        tally.same("the records afterwards", handed == marks, true).map_err(called)?;
    }
    Ok(())
}

#[cfg(test)]
#[path = "report_mutants.rs"]
mod mutants;
