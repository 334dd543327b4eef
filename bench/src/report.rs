//! The session report (document 02, item 9) in plain Rust, optimised by hand, with the standard library's sort; and lists of records for the
//! benchmark.

use crate::fast::{LINE, put_line, refusal, refused};
use judge::ffi::{Filled, Mark, Refusal};
use oracle::random::Random;
use oracle::report::MOST_RECORDS;

#[inline(always)]
fn right(mark: &Mark) -> bool {
    mark.candidate.wrapping_sub(1) < 9999 && mark.question.wrapping_sub(1) < 99 && mark.gained <= mark.possible && mark.possible <= 100
}

/// Candidate, gained and possible in one number: 24, 20 and 20 bits, so that keys of one candidate are added up in place.
pub fn report(marks: &[Mark], buffer: &mut [u8]) -> Filled {
    if marks.len() > MOST_RECORDS {
        return refused(refusal(19, 0));
    }
    let mut keys = [0; MOST_RECORDS];
    let (mut gained, mut possible) = (0, 0);
    for (place, (mark, key)) in marks.iter().zip(&mut keys).enumerate() {
        if !right(mark) {
            return refused(refusal(18, place + 1));
        }
        gained += u32::from(mark.gained);
        possible += u32::from(mark.possible);
        *key = u64::from(mark.candidate) << 40 | u64::from(mark.gained) << 20 | u64::from(mark.possible);
    }
    let keys = &mut keys[..marks.len()];
    keys.sort_unstable();
    let mut candidates = 0;
    for place in 0..keys.len() {
        let key = keys[place];
        if candidates > 0 && keys[candidates - 1] >> 40 == key >> 40 {
            keys[candidates - 1] += key & 0xff_ffff_ffff;
        } else {
            keys[candidates] = key;
            candidates += 1;
        }
    }
    let length = (candidates + 1) * LINE;
    let Some(text) = buffer.get_mut(..length) else {
        return refused(refusal(9, 0));
    };
    let (lines, _) = text.as_chunks_mut::<LINE>();
    for (line, &key) in lines.iter_mut().zip(&keys[..candidates]) {
        put_line(line, b'M', [(key >> 40) as u32, (key >> 20 & 0xf_ffff) as u32, (key & 0xf_ffff) as u32]);
    }
    put_line(&mut lines[candidates], b'Z', [gained, possible]);
    Filled { refusal: Refusal::NONE, length }
}

/// 999 records in no order: each of another candidate, or all of one.
pub fn list(different: bool) -> Vec<Mark> {
    let mut random = Random::new(9);
    let mut candidates: Vec<u16> = (1..=9999).collect();
    random.shuffle(&mut candidates);
    (0..MOST_RECORDS)
        .map(|place| {
            let possible = random.between(1, 100) as u16;
            let candidate = if different { candidates[place] } else { 700 };
            Mark { candidate, question: 1 + (place % 99) as u16, gained: random.between(0, possible.into()) as u16, possible }
        })
        .collect()
}

#[cfg(test)]
mod checks {
    #[test]
    fn agrees_with_the_oracle() {
        let compared = oracle::report::compare_reports(&super::report, 20_000);
        assert!(compared.is_ok(), "{compared:?}");
    }
}
