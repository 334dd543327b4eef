//! Placing trains (02, Item 14): the request in plain Rust, and the comparison of the library with it.

use judge::ffi::{self, Placed, Reading, Refusal};
use judge::{Letter, Section, Situation};
use oracle::random::Random;

/// So many entries of guard stand before and after the lent list.
const GUARD: usize = 8;
const CASES: u64 = 200_000;

/// The sections of the trains and the last state, or the number of a refusal.
fn wanted(paper: u64, sections: u16, trains: u16, room: usize) -> Result<(Vec<u16>, u64), u16> {
    if !(1..=512).contains(&sections) || trains > sections || trains > 64 {
        return Err(21);
    }
    if room < usize::from(trains) {
        return Err(9);
    }
    let two_to_64: u128 = 1 << 64;
    let two_to_32: u128 = 1 << 32;
    let mut state = u128::from(paper);
    let mut placed: Vec<u16> = Vec::new();
    for _ in 0..trains {
        state = (state + 0x9e37_79b9_7f4a_7c15) % two_to_64;
        let mut section = (state / two_to_32 * u128::from(sections) / two_to_32 + 1) as u16;
        while placed.contains(&section) {
            section = if section == sections { 1 } else { section + 1 };
        }
        placed.push(section);
    }
    Ok((placed, state as u64))
}

/// A number of sections or trains, often at a limit.
fn number(random: &mut Random, near: u16) -> u16 {
    let limits = [0, 1, 2, 3, 63, 64, 65, 66, 511, 512, 513, 514, 32_768, u16::MAX, near, near.wrapping_sub(1), near.wrapping_add(1)];
    match random.between(1, 4) {
        1 => random.pick(&limits),
        2 => random.between(0, 80) as u16,
        3 => random.between(1, 512) as u16,
        _ => near,
    }
}

/// A paper number: any, or one close to where the carry is dropped.
fn paper(random: &mut Random) -> u64 {
    let growth: u64 = 0x9e37_79b9_7f4a_7c15;
    let near = [0, u64::MAX, growth, growth.wrapping_neg(), 1 << 32, 1 << 63, u64::MAX << 32];
    match random.between(1, 3) {
        1 => random.pick(&near).wrapping_add(u64::from(random.between(0, 4))).wrapping_sub(2),
        2 => u64::from(random.between(0, 3000)),
        _ => random.number(),
    }
}

/// How many calls were compared, or the first that differs.
pub fn compare() -> Result<u64, String> {
    let mut compared = 0;
    for seed in 0..CASES {
        let random = &mut Random::new(seed);
        let paper = paper(random);
        let any = random.between(1, 64) as u16;
        let sections = number(random, any);
        let trains = number(random, sections.min(64));
        let limits = [0, usize::from(trains), usize::from(trains) + 1, (usize::from(trains)).saturating_sub(1), 64];
        let room = random.pick(&limits).min(600);
        let held: Vec<u16> = (0..room + 2 * GUARD).map(|_| random.number() as u16).collect();
        let mut now = held.clone();
        let given = ffi::place(paper, sections, trains, &mut now[GUARD..GUARD + room]);
        let mut list = held.clone();
        let answer = match wanted(paper, sections, trains, room) {
            Err(number) => Placed { refusal: Refusal { number, line: 0 }, state: 0 },
            Ok((placed, state)) => {
                list[GUARD..GUARD + placed.len()].copy_from_slice(&placed);
                Placed { refusal: Refusal::NONE, state }
            }
        };
        let call = format!("placing {trains} trains in {sections} sections, paper number {paper}, a list of {room}");
        if given != answer {
            return Err(format!("{call}: {given:?} in place of {answer:?}"));
        }
        if now != list {
            return Err(format!("{call}: the list is {now:?} in place of {list:?}"));
        }
        compared += 2;
        if given.refusal.number == 0 && seed % 16 == 0 {
            compared +=
                accepted(sections, &now[GUARD..GUARD + usize::from(trains)]).map_err(|difference| format!("{call}: {difference}"))?;
        }
    }
    Ok(compared)
}

/// The sections are accepted as T lines of a station with so many sections, and are read back.
fn accepted(sections: u16, placed: &[u16]) -> Result<u64, String> {
    let letter = if sections.is_multiple_of(2) { Letter::U } else { Letter::S };
    let trains = placed.iter().map(|&section| vec![Section(section)]).collect();
    let situation = Situation { letter, sections, trains, ..Situation::default() };
    let file = judge::to_bytes(&situation).map_err(|refusal| format!("the sections as T lines: {refusal}"))?;
    if ffi::read(&file) == (Reading { refusal: Refusal::NONE, situation: (&situation).into() }) && judge::read(&file) == Ok(situation) {
        Ok(1)
    } else {
        Err("the sections are not accepted as T lines".to_string())
    }
}
