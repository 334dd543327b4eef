//! The standing answers of a log (document 02, item 8) in plain Rust, optimised by hand, with the standard library's sort; and a log for the
//! benchmark.

use crate::fast::{LINE, framed, old_number as number, old_numbers as numbers, outside, put_line, refusal, refused};
use judge::ffi::{Filled, Refusal};
use oracle::answers;
use oracle::random::Random;

const MOST_LINES: usize = answers::MOST_LINES;

/// Candidate, question, sequence, line and answer in one number: 14, 7, 17, 10 and 13 bits.
#[inline(always)]
fn key(line: &[u8; LINE], place: usize) -> Option<u64> {
    let ([candidate, question], sequence, answer) = (numbers(line, 0), number(line, 2), number(line, 3));
    let right =
        framed(line, b'C', 21) && !outside(candidate, 9999) && !outside(question, 99) && !outside(sequence, 99_999) && answer <= 4097;
    let high = u64::from(candidate) << 7 | u64::from(question);
    right.then_some(((high << 17 | u64::from(sequence)) << 10 | place as u64) << 13 | u64::from(answer))
}

pub fn standing_answers(log: &[u8], buffer: &mut [u8]) -> Filled {
    let (lines, rest) = log.as_chunks::<LINE>();
    if !rest.is_empty() || lines.len() > MOST_LINES {
        return refused(refusal(16, 0));
    }
    let mut keys = [0; MOST_LINES];
    let mut read = 0;
    for line in lines {
        let Some(key) = key(line, read + 1) else { break };
        keys[read] = key;
        read += 1;
    }
    let keys = &mut keys[..read];
    keys.sort_unstable();
    let again = keys.windows(2).filter(|pair| pair[0] >> 23 == pair[1] >> 23).map(|pair| pair[1] >> 13 & 1023).min();
    if let Some(line) = again {
        return refused(refusal(17, line as usize));
    }
    if read < lines.len() {
        return refused(refusal(16, read + 1));
    }
    let mut kept = 0;
    for place in 0..read {
        let last = place + 1 == read || keys[place] >> 40 != keys[place + 1] >> 40;
        let key = keys[place];
        keys[kept] = key;
        kept += usize::from(last && key & 8191 != 0);
    }
    if buffer.len() < kept * LINE {
        return refused(refusal(9, 0));
    }
    for (line, &key) in buffer.chunks_exact_mut(LINE).zip(&keys[..kept]) {
        put_line(line, b'C', [(key >> 47) as u32, (key >> 40 & 127) as u32, (key >> 23 & 131_071) as u32, (key & 8191) as u32]);
    }
    Filled { refusal: Refusal::NONE, length: kept * LINE }
}

/// 1,000 lines of 50 candidates and 10 questions, in no order.
pub fn log() -> Vec<u8> {
    let mut random = Random::new(8);
    let mut sent: Vec<answers::Sent> = (0..MOST_LINES as u32)
        .map(|place| answers::Sent {
            candidate: 100 + 7 * (place % 50),
            question: 1 + place / 50 % 10,
            sequence: 1 + 37 * place,
            answer: random.between(0, 4097),
        })
        .collect();
    random.shuffle(&mut sent);
    sent.into_iter().flat_map(answers::text).collect()
}

#[cfg(test)]
mod checks {
    #[test]
    fn agrees_with_the_oracle() {
        let compared = oracle::answers::compare_answers(&super::standing_answers, 20_000);
        assert!(compared.is_ok(), "{compared:?}");
    }
}
