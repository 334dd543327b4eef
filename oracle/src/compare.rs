//! One file through every operation: what is answered, and what is left in lent memory, against the oracle.

use std::collections::BTreeSet;

use judge::ffi::{Filled, Reading, Refusal, SettingsAnswer, Situation, VerdictAnswer};

use crate::generate;
use crate::law::{self, Answer, Verdict};
use crate::random::Random;
use crate::subject::{Subject, from_oracle, output, to_oracle, with_plain_kinds};

/// A difference, in words.
pub type Difference = String;

/// What was compared so far.
#[derive(Clone, Copy, Debug, Default)]
pub struct Tally {
    /// How many answers and pieces of lent memory.
    pub comparisons: u64,
    /// How many files the reader refuses with each number; with number 0, how many it accepts.
    pub files_refused: [u64; 9],
}

impl Tally {
    /// Compares two values.
    pub(crate) fn same<T: PartialEq + std::fmt::Debug>(&mut self, what: &str, given: T, wanted: T) -> Result<(), Difference> {
        self.comparisons += 1;
        if given == wanted { Ok(()) } else { Err(format!("{what}: given {given:?}, wanted {wanted:?}")) }
    }

    /// Compares two values that are too long to be shown.
    fn same_unshown<T: PartialEq>(&mut self, what: &str, given: &T, wanted: &T) -> Result<(), Difference> {
        self.comparisons += 1;
        if given == wanted { Ok(()) } else { Err(format!("{what}: not what is wanted")) }
    }
}

/// So many entries of guard stand before and after lent memory.
const GUARD: usize = 64;

/// Lent memory with guards around it, filled with numbers without sense.
pub(crate) struct Lent<T> {
    held: Vec<T>,
    now: Vec<T>,
}

impl<T: Copy + PartialEq> Lent<T> {
    fn new(random: &mut Random, room: usize, entry: impl Fn(u64) -> T) -> Lent<T> {
        let start = random.number();
        let number = |place: usize| start.wrapping_add(place as u64).wrapping_mul(0x9e37_79b9_7f4a_7c15) >> 40;
        let held: Vec<T> = (0..room + 2 * GUARD).map(|place| entry(number(place))).collect();
        Lent { now: held.clone(), held }
    }

    pub(crate) fn slice(&mut self) -> &mut [T] {
        let end = self.now.len() - GUARD;
        &mut self.now[GUARD..end]
    }

    /// The first entries, as many as were written.
    fn start(&mut self, length: usize) -> Result<Vec<T>, Difference> {
        match self.slice().get(..length) {
            Some(start) => Ok(start.to_vec()),
            None => Err(format!("a length of {length} where {} are lent", self.slice().len())),
        }
    }

    /// The memory begins with what is wanted, and every other entry, guards included, is what it was.
    pub(crate) fn check(&self, tally: &mut Tally, what: &str, wanted: &[T]) -> Result<(), Difference> {
        tally.comparisons += 1;
        let end = GUARD + wanted.len();
        if self.now[GUARD..end] != *wanted {
            return Err(format!("{what}: the lent memory does not begin with what is wanted"));
        }
        if self.now[..GUARD] != self.held[..GUARD] || self.now[end..] != self.held[end..] {
            return Err(format!("{what}: lent memory is changed that should be as it was"));
        }
        Ok(())
    }
}

pub(crate) fn lent_bytes(random: &mut Random, room: usize) -> Lent<u8> {
    Lent::new(random, room, |number| number as u8)
}

/// What an operation answers that fills a buffer of so many bytes with a text, and what then stands at the buffer's start.
pub(crate) fn filled(wanted: &Result<Vec<u8>, Refusal>, room: usize) -> (Filled, &[u8]) {
    let (refusal, start) = match wanted {
        Err(refusal) => (*refusal, &[][..]),
        Ok(text) if room < text.len() => (Refusal { number: 9, line: 0 }, &[][..]),
        Ok(text) => (Refusal::NONE, text.as_slice()),
    };
    (Filled { refusal, length: start.len() }, start)
}

fn lent_numbers(random: &mut Random, room: usize) -> Lent<u16> {
    Lent::new(random, room, |number| number as u16)
}

/// What the oracle answers for a file, with long enough memory, and the moves that the file permits.
struct Wanted {
    read: Result<law::Situation, Refusal>,
    answer: Answer,
    moves: BTreeSet<(u32, u32)>,
}

/// Compares every operation on a file with the oracle. `seed` decides on the values tried with the writer and on what memory holds.
pub fn compare(subject: &dyn Subject, file: &[u8], seed: u64, tally: &mut Tally) -> Result<(), Difference> {
    let mut random = Random::new(!seed);
    let lent = file.to_vec();
    let read = law::read(file);
    tally.files_refused[read.as_ref().map_or_else(|refusal| usize::from(refusal.number), |_| 0)] += 1;
    let moves = read.as_ref().map(law::moves).unwrap_or_default();
    let wanted = Wanted { answer: law::answer(&read), moves, read };
    compare_read(subject, &lent, &wanted, tally)?;
    compare_write(subject, &lent, &wanted, &mut random, tally)?;
    compare_verdict(subject, &lent, &wanted, &mut random, tally)?;
    compare_settings(subject, &lent, &wanted, &mut random, tally)?;
    compare_key(subject, &lent, &wanted, &mut random, tally)?;
    tally.same_unshown("the bytes of the file after all calls", &lent.as_slice(), &file)
}

fn compare_read(subject: &dyn Subject, file: &[u8], wanted: &Wanted, tally: &mut Tally) -> Result<(), Difference> {
    let Reading { refusal, situation } = subject.read(file);
    tally.same("read, refusal", refusal, wanted.read.as_ref().err().copied().unwrap_or(Refusal::NONE))?;
    let expected = match &wanted.read {
        Ok(situation) => from_oracle(situation),
        Err(_) => Situation::ZEROS,
    };
    tally.same_unshown("read, situation", &with_plain_kinds(situation), &expected)
}

/// The situation of the file is written back, which gives the file in the old form; then other values are written.
fn compare_write(subject: &dyn Subject, file: &[u8], wanted: &Wanted, random: &mut Random, tally: &mut Tally) -> Result<(), Difference> {
    if let Ok(situation) = &wanted.read {
        let text = law::write(situation, usize::MAX).expect("what was read is written");
        let read = subject.read(file).situation;
        let mut lent = lent_bytes(random, file.len());
        tally.same("write what was read", subject.write(&read, lent.slice()), output(Ok(&text)))?;
        lent.check(tally, "write what was read", &text)?;
    }
    let values = generate::values(random);
    let lines = 1 + usize::from(values.plain) + usize::from(values.elements) + usize::from(values.trains);
    // Counts above the limits are refused whatever the buffer.
    let exact = (law::LINE * lines).min(law::MOST_BYTES + 100);
    let whole = law::write(&to_oracle(&values), usize::MAX);
    for room in [exact, 0, exact - 1, exact + 1 + random.place(60)] {
        let mut lent = lent_bytes(random, room);
        let given = subject.write(&values, lent.slice());
        let (Filled { refusal, .. }, text) = filled(&whole, room);
        let what = format!("write values, {room} bytes lent");
        tally.same(&what, given, output(if refusal == Refusal::NONE { Ok(text) } else { Err(refusal) }))?;
        lent.check(tally, &what, text)?;
    }
    Ok(())
}

fn compare_verdict(subject: &dyn Subject, file: &[u8], wanted: &Wanted, random: &mut Random, tally: &mut Tally) -> Result<(), Difference> {
    let exact = wanted.read.as_ref().map_or(512, |situation| situation.header.sections as usize);
    let longer = exact + 1 + random.place(20);
    let short = exact - 1;
    for (first_room, second_room) in [(exact, exact), (longer, exact), (exact, longer), (short, exact), (exact, short), (0, 0)] {
        let mut first = lent_numbers(random, first_room);
        let mut second = lent_numbers(random, second_room);
        let given = subject.verdict(file, first.slice(), second.slice());
        let refusal = law::verdict_refusal(&wanted.read, first_room, second_room);
        let verdict = match (&wanted.answer, refusal) {
            (Answer::Judged(verdict), None) => Some(*verdict),
            _ => None,
        };
        let what = format!("verdict, lists of {first_room} and {second_room} lent");
        // The lengths of the paths are free as far as the paths are.
        let (first_length, second_length) = (given.first_length, given.second_length);
        let expected = verdict_answer(refusal, verdict, first_length, second_length);
        tally.same(&what, given, expected)?;
        let first_path = first.start(first_length)?;
        let second_path = second.start(second_length)?;
        first.check(tally, &format!("{what}, first list"), &first_path)?;
        second.check(tally, &format!("{what}, second list"), &second_path)?;
        if let (Ok(situation), Some(Verdict { named: Some(named), .. })) = (&wanted.read, verdict) {
            let (first_path, second_path) = (widened(&first_path), widened(&second_path));
            tally.comparisons += 2;
            law::check_path(situation, &wanted.moves, named.first, named.meeting, &first_path).map_err(|why| format!("{what}: {why}"))?;
            law::check_path(situation, &wanted.moves, named.second, named.meeting, &second_path).map_err(|why| format!("{what}: {why}"))?;
        }
    }
    Ok(())
}

fn widened(path: &[u16]) -> Vec<u32> {
    path.iter().map(|&section| u32::from(section)).collect()
}

/// The answer of a verdict; the lengths are taken over where two paths are shown, and are 0 elsewhere.
fn verdict_answer(refusal: Option<Refusal>, verdict: Option<Verdict>, first_length: usize, second_length: usize) -> VerdictAnswer {
    let mut answer = VerdictAnswer::refused(refusal.unwrap_or(Refusal::NONE));
    if let Some(verdict) = verdict {
        answer.entries = verdict.entries;
        answer.looks = verdict.looks;
        if let Some(named) = verdict.named {
            answer.dangerous = 1;
            answer.first_train = named.first as u16;
            answer.second_train = named.second as u16;
            answer.meeting = named.meeting as u16;
            answer.first_length = first_length;
            answer.second_length = second_length;
        }
    }
    answer
}

fn compare_settings(subject: &dyn Subject, file: &[u8], wanted: &Wanted, random: &mut Random, tally: &mut Tally) -> Result<(), Difference> {
    let exact = wanted.read.as_ref().map_or(256, |situation| situation.elements.len());
    // Each setting is judged once here, for all lengths of the buffer.
    let reply = match (&wanted.answer, &wanted.read) {
        (Answer::Replied(reply), _) => Some(reply.clone()),
        (Answer::Judged(_), Ok(situation)) => Some(law::settings(situation)),
        _ => None,
    };
    for room in [exact, exact.saturating_sub(1), 0, exact + 1 + random.place(40)] {
        let mut lent = lent_bytes(random, room);
        let given = subject.settings(file, lent.slice());
        let refusal = law::settings_refusal(&wanted.read, room);
        let answered = reply.as_ref().filter(|_| refusal.is_none());
        let expected = SettingsAnswer {
            refusal: refusal.unwrap_or(Refusal::NONE),
            safe: answered.map_or(0, |reply| reply.safe as u16),
            proceed: answered.map_or(0, |reply| reply.proceed as u16),
        };
        let what = format!("settings, {room} bytes lent");
        tally.same(&what, given, expected)?;
        let setting = answered.and_then(|reply| reply.chosen.as_ref());
        let setting: Vec<u8> = setting.into_iter().flatten().map(|&state| state as u8).collect();
        lent.check(tally, &what, &setting)?;
    }
    Ok(())
}

fn compare_key(subject: &dyn Subject, file: &[u8], wanted: &Wanted, random: &mut Random, tally: &mut Tally) -> Result<(), Difference> {
    for room in [law::LONGEST_KEY, law::LONGEST_KEY + 1 + random.place(30)] {
        let mut lent = lent_bytes(random, room);
        let given = subject.key(file, lent.slice());
        let what = format!("key, {room} bytes lent");
        let text = lent.start(given.length)?;
        tally.same(&what, given, output(Ok(&text)))?;
        lent.check(tally, &what, &text)?;
        let (first, second) = (shown_sections(&text, b'A'), shown_sections(&text, b'B'));
        let expected = law::key_text(&wanted.answer, &first, &second);
        tally.same(&what, String::from_utf8_lossy(&text), String::from_utf8_lossy(&expected))?;
        if let (Ok(situation), Answer::Judged(Verdict { named: Some(named), .. })) = (&wanted.read, &wanted.answer) {
            tally.comparisons += 2;
            law::check_path(situation, &wanted.moves, named.first, named.meeting, &first).map_err(|why| format!("{what}: {why}"))?;
            law::check_path(situation, &wanted.moves, named.second, named.meeting, &second).map_err(|why| format!("{what}: {why}"))?;
        }
    }
    for room in [0, law::LONGEST_KEY - 1] {
        let mut lent = lent_bytes(random, room);
        let given = subject.key(file, lent.slice());
        let what = format!("key, {room} bytes lent");
        tally.same(&what, given, output(Err(Refusal { number: 9, line: 0 })))?;
        lent.check(tally, &what, &[])?;
    }
    Ok(())
}

/// The sections in the second field of all lines of a key that have this letter.
fn shown_sections(text: &[u8], letter: u8) -> Vec<u32> {
    let lines = text.chunks(law::LINE).filter(|line| line.len() == law::LINE && line[0] == letter);
    lines.map(|line| String::from_utf8_lossy(&line[6..11]).trim().parse().unwrap_or(0)).collect()
}

#[cfg(test)]
#[path = "compare_mutants.rs"]
mod mutants;
