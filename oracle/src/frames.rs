//! The walk through all settings (02, Item 11): the request in plain Rust, and the comparison of the library with it, one frame of many files and
//! the whole walk of some.

use std::collections::BTreeSet;

use judge::ffi::{self, Refusal};
use oracle::generate;
use oracle::law::{self, Element, Situation};
use oracle::random::Random;

/// So many bytes of guard stand before and after the lent buffer.
const GUARD: usize = 8;
/// So many files, and so many single frames of each.
const FILES: u64 = 6_000;
const FRAMES: usize = 8;
/// Of each such file with at most so many open elements the whole walk is made, of those with few its safe frames are counted.
const WALKED: u64 = 6;
const MOST_WALKED: usize = 12;
const MOST_COUNTED: usize = 6;

/// "The bits of n exclusive-or n halved (rounded down), lowest bit for the last open element, 0 for state 1"; "n past the last starts over".
fn wanted(situation: &Situation, n: u64) -> Vec<u8> {
    let open = situation.elements.iter().filter(|element| element.is_open()).count();
    let mut whole = u128::from(n) % 2u128.pow(open as u32);
    let mut half = whole / 2;
    let mut setting: Vec<u8> = situation.elements.iter().map(|element| element.state() as u8).collect();
    for place in (0..setting.len()).rev() {
        if situation.elements[place].is_open() {
            setting[place] = if whole % 2 == half % 2 { 1 } else { 2 };
            whole /= 2;
            half /= 2;
        }
    }
    setting
}

/// A number of a frame: any, or one close to a limit.
fn number(random: &mut Random, open: usize) -> u64 {
    let round = 1u64 << open.min(63);
    let near = [0, round, round / 2, 2 * (round % (1 << 62)), 1 << 12, 1 << 13, 1 << 16, 1 << 32, 1 << 63];
    match random.between(1, 4) {
        1 => random.number(),
        2 => u64::from(random.between(0, 5000)),
        _ => random.pick(&near).wrapping_add(u64::from(random.between(0, 4))).wrapping_sub(2),
    }
}

/// The library's frame in a buffer of its own length.
fn frame(file: &[u8], n: u64, elements: usize) -> Result<Vec<u8>, String> {
    let mut buffer = vec![9; elements];
    let refusal = ffi::frame(file, n, &mut buffer);
    if refusal == Refusal::NONE { Ok(buffer) } else { Err(format!("frame {n} is refused: {refusal:?}")) }
}

/// The station with the states of a setting.
fn with(situation: &Situation, setting: &[u8]) -> Situation {
    let mut other = situation.clone();
    for (element, &now) in other.elements.iter_mut().zip(setting) {
        match element {
            Element::Signal { state, .. } | Element::Turnout { state, .. } => *state = u32::from(now),
        }
    }
    other
}

/// One round: neighbours, and the last and the first, differ in one element, which is open; no setting comes twice; and as many frames are safe
/// as the settings question says.
fn walk(file: &[u8], situation: &Situation, open: usize) -> Result<(), String> {
    let elements = situation.elements.len();
    let round = 1u64 << open;
    let mut seen = BTreeSet::new();
    let mut safe = 0;
    let mut before = frame(file, round - 1, elements)?;
    for n in 0..round {
        let setting = frame(file, n, elements)?;
        if setting != wanted(situation, n) {
            return Err(format!("frame {n} is {setting:?}"));
        }
        let changed: Vec<usize> = (0..elements).filter(|&place| setting[place] != before[place]).collect();
        if open > 0 && (changed.len() != 1 || !situation.elements[changed[0]].is_open()) {
            return Err(format!("elements {changed:?} change before frame {n}"));
        }
        if open <= MOST_COUNTED && law::verdict(&with(situation, &setting)).named.is_none() {
            safe += 1;
        }
        seen.insert(setting.clone());
        before = setting;
    }
    if seen.len() as u64 != round {
        return Err(format!("{} settings in {round} frames", seen.len()));
    }
    let reply = ffi::settings(file, &mut vec![0; elements]);
    if open <= MOST_COUNTED && reply.safe != safe {
        return Err(format!("{safe} frames are safe, and the settings question has {}", reply.safe));
    }
    Ok(())
}

/// How many frames and walks were compared, or the first that differs.
pub fn compare() -> Result<u64, String> {
    let mut compared = 0;
    let mut outcomes = [0u64; 12];
    let mut walks = 0;
    for index in 0..FILES {
        let random = &mut Random::new(index ^ 0x6672_616d);
        let file = generate::case(index).file;
        let read = law::read(&file);
        let elements = read.as_ref().map_or(4, |situation| situation.elements.len());
        let open = read.as_ref().map_or(2, |situation| situation.elements.iter().filter(|element| element.is_open()).count());
        for _ in 0..FRAMES {
            let n = number(random, open);
            let room = random.pick(&[0, elements.saturating_sub(1), elements, elements, elements, elements + 1, 256]);
            let held: Vec<u8> = (0..room + 2 * GUARD).map(|_| random.byte()).collect();
            let mut now = held.clone();
            let given = ffi::frame(&file, n, &mut now[GUARD..GUARD + room]);
            let mut buffer = held;
            let answer = match (law::settings_refusal(&read, room), &read) {
                (Some(refusal), _) => refusal,
                (None, Ok(situation)) => {
                    buffer[GUARD..GUARD + elements].copy_from_slice(&wanted(situation, n));
                    Refusal::NONE
                }
                (None, Err(_)) => return Err(format!("file {index}: no refusal of a file that is not accepted")),
            };
            if given != answer {
                return Err(format!("file {index}, frame {n}, a buffer of {room}: {given:?} in place of {answer:?}"));
            }
            if now != buffer {
                return Err(format!("file {index}, frame {n}: the buffer is {now:?} in place of {buffer:?}"));
            }
            outcomes[usize::from(answer.number)] += 1;
            compared += 2;
        }
        if let Ok(situation) = &read
            && open <= MOST_WALKED
            && index % WALKED == 0
        {
            walk(&file, situation, open).map_err(|difference| format!("file {index}, a walk of {open} open elements: {difference}"))?;
            walks += 1;
            compared += 1;
        }
    }
    println!("frames: {} given, {} refused with 9, {} with 11; {walks} whole walks", outcomes[0], outcomes[9], outcomes[11]);
    if outcomes[0] == 0 || outcomes[9] == 0 || outcomes[11] == 0 || walks == 0 {
        return Err("frames: an outcome did not come up".to_string());
    }
    Ok(compared)
}
