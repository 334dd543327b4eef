//! The route table of document 02, item 7, optimised by hand.
//!
//! No two routes are compared. For each section there is a word with a bit for each route that has it, for each turnout two such words, one
//! for each state: a K line joins its section's word to the conflicts of its route, a W line the word of the other state, so that after the
//! last line the conflicts of each route with the earlier ones are there.

use judge::ffi::{Filled, Refusal, Situation};

use crate::fast::{LINE, MALFORMED, Taken, framed, old_number as number, old_numbers as numbers, outside, read_taking, refusal, refused};

/// Reads a route file against a station file and fills the start of the table.
pub fn routes(station: &[u8], file: &[u8], table: &mut [u8]) -> Filled {
    let mut situation = Situation::ZEROS;
    let mut over = Taken::NONE;
    let unread = read_taking(station, &mut situation, &mut over);
    if unread != Refusal::NONE {
        return refused(unread);
    }
    match conflicts(file, &situation, &over) {
        Err(refusal) => refused(refusal),
        Ok((count, _)) if table.len() < count * count => refused(refusal(9, 0)),
        Ok((count, conflicts)) => {
            for (a, row) in table.chunks_exact_mut(count.max(1)).take(count).enumerate() {
                for (b, byte) in row.iter_mut().enumerate() {
                    *byte = (conflicts[a] >> b & 1) as u8;
                }
            }
            Filled { refusal: Refusal::NONE, length: count * count }
        }
    }
}

/// The number of routes, and for each route a word with a bit for each route that it conflicts with.
fn conflicts(file: &[u8], situation: &Situation, over: &Taken) -> Result<(usize, [u64; 64]), Refusal> {
    let sections = u32::from(situation.sections);
    let elements = u32::from(situation.elements);
    let is =
        |element: u32, turnout: bool| !outside(element, elements) && (situation.is_turnout[(element - 1) as usize & 255] != 0) == turnout;
    let mut with_section = [0u64; 512];
    let mut with_turnout = [[0u64; 256]; 2];
    let mut earlier = [0u64; 64];
    let mut count = 0;
    let (lines, rest) = file.as_chunks::<LINE>();
    // Line `at`, counted from 0, is cut or missing.
    let absent = |at: usize| refusal(14, at + 1);
    let mut at = 0;
    while at < lines.len() {
        let line = &lines[at];
        let ([name, signal], [many, turnouts]) = (numbers(line, 0), numbers(line, 2));
        let formed = framed(line, b'R', 21) && many.wrapping_sub(2) <= 30 && turnouts <= 16;
        if !formed || name as usize != count + 1 || count == 64 || !is(signal, false) {
            return Err(refusal(14, at + 1));
        }
        at += 1;
        let route = 1u64 << count;
        let mut conflicting = 0;
        let mut last = 0;
        for _ in 0..many {
            let Some(line) = lines.get(at) else { return Err(absent(at)) };
            let section = number(line, 0);
            if !framed(line, b'K', 6) || section == MALFORMED || outside(section, sections) {
                return Err(refusal(14, at + 1));
            }
            let place = (section - 1) as usize & 511;
            if last != 0 && !over.over((last - 1) as usize & 511, place) {
                return Err(refusal(15, at + 1));
            }
            conflicting |= with_section[place];
            with_section[place] |= route;
            last = section;
            at += 1;
        }
        for _ in 0..turnouts {
            let Some(line) = lines.get(at) else { return Err(absent(at)) };
            let [element, state] = numbers(line, 0);
            if !framed(line, b'W', 11) || !is(element, true) || outside(state, 2) {
                return Err(refusal(14, at + 1));
            }
            let (place, wanted) = ((element - 1) as usize & 255, (state - 1) as usize & 1);
            conflicting |= with_turnout[1 - wanted][place];
            with_turnout[wanted][place] |= route;
            at += 1;
        }
        earlier[count] = conflicting & (route - 1);
        count += 1;
    }
    if !rest.is_empty() {
        return Err(absent(at));
    }
    let mut conflicts = earlier;
    for a in 0..count {
        let mut others = earlier[a];
        while others != 0 {
            conflicts[others.trailing_zeros() as usize] |= 1 << a;
            others &= others - 1;
        }
    }
    Ok((count, conflicts))
}

#[cfg(test)]
mod checks {
    use super::*;

    #[test]
    fn the_fast_program_is_right() {
        let (_, outcomes) = oracle::routes::compare(routes, 2000).unwrap();
        assert!(outcomes[0] > 0 && outcomes[14] > 0 && outcomes[15] > 0);
    }
}
