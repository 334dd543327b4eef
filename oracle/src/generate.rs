//! The files and values that are tried: file number n is the same in every run and on every machine.
//!
//! Of twenty files, some eight are accepted stations, nine are damaged in ways that 01 refuses (`damage`), two have a few bytes
//! changed, and one is bytes without sense. Of the first three sorts every fourth is padded with zeros (`padding`) before that.

pub mod damage;
pub mod padding;
pub mod stations;
mod values;

pub use values::values;

use crate::law;
use crate::random::Random;

/// A file to try, and how it was made.
#[derive(Clone, Debug)]
pub struct Case {
    pub made: String,
    pub file: Vec<u8>,
}

/// File number `index`.
pub fn case(index: u64) -> Case {
    let mut random = Random::new(index);
    match random.between(1, 20) {
        1..=8 => {
            let (made, file) = station(&mut random);
            Case { made, file }
        }
        9..=17 => {
            let (made, file) = station(&mut random);
            let (damaged, file) = damage::damage(&mut random, file);
            Case { made: format!("{made}; {damaged}"), file }
        }
        18..=19 => {
            let (made, mut file) = station(&mut random);
            let changes = random.between(1, 3);
            for _ in 0..changes {
                let place = random.place(file.len());
                file[place] = if random.once_in(4) { random.byte() } else { random.pick(b" 0123456789SPLDTU\n\r\t") };
            }
            Case { made: format!("{made}; {changes} bytes changed"), file }
        }
        _ => nonsense(&mut random),
    }
}

/// An accepted station as a file, some of them padded.
fn station(random: &mut Random) -> (String, Vec<u8>) {
    let (made, situation) = stations::station(random);
    let mut file = law::write(&situation, usize::MAX).expect("a station that is written is accepted");
    if random.once_in(4) {
        padding::pad(random, &mut file);
        return (format!("{made}, padded"), file);
    }
    (made, file)
}

/// Bytes without sense, some of them in lines or with the bytes that a station file has.
fn nonsense(random: &mut Random) -> Case {
    let most = random.pick(&[3, 25, 200, 2000, 30_000]);
    let mut length = random.between(0, most) as usize;
    if random.once_in(2) {
        length -= length % law::LINE;
    }
    let known = random.once_in(2);
    let mut file: Vec<u8> = (0..length).map(|_| if known { random.pick(b"   0123SUPLDT\n") } else { random.byte() }).collect();
    if random.once_in(2) && length >= law::LINE {
        let counts = [random.between(1, 512), random.between(0, 9), random.between(0, 9), (length / law::LINE) as u32];
        let letter = if random.once_in(3) { 'U' } else { 'S' };
        file[..law::LINE].copy_from_slice(&law::line_text(letter, &counts));
    }
    Case { made: format!("{length} bytes without sense"), file }
}

#[cfg(test)]
mod tests {
    use super::*;
    use std::collections::BTreeSet;

    #[test]
    fn a_file_is_the_same_each_time() {
        for index in 0..200 {
            assert_eq!(case(index).file, case(index).file);
        }
    }

    /// Each cause occurs on each kind of line that can have it, and so do the refusals of calls and both verdicts.
    #[test]
    fn every_cause_occurs_on_every_kind_of_line() {
        let mut refused = BTreeSet::new();
        let mut dangerous = BTreeSet::new();
        let mut most_open = 0;
        for index in 0..6000 {
            let file = case(index).file;
            let read = law::read(&file);
            match &read {
                Err(refusal) => {
                    let start = usize::from(refusal.line.saturating_sub(1)) * law::LINE;
                    let letter = if refusal.line == 0 || refusal.number == 2 { '-' } else { file[start] as char };
                    refused.insert((refusal.number, letter));
                    if refusal.number == 2 {
                        refused.insert((2, b"SUPLDT".iter().find(|&&l| l == file[start]).map_or('?', |&l| l as char)));
                    }
                }
                Ok(situation) => {
                    if let Some(refusal) = law::settings_refusal(&read, usize::MAX) {
                        refused.insert((refusal.number, '-'));
                    } else {
                        most_open = most_open.max(situation.elements.iter().filter(|element| element.is_open()).count());
                    }
                    if let Some(refusal) = law::verdict_refusal(&read, usize::MAX, usize::MAX) {
                        refused.insert((refusal.number, '-'));
                    } else {
                        dangerous.insert(law::verdict(situation).named.is_some());
                    }
                }
            }
        }
        let wanted =
            [(1, "-"), (2, "-?SUPLDT"), (3, "SU"), (4, "SU"), (5, "PLDT"), (6, "LD"), (7, "PLDT"), (8, "PLD"), (10, "-"), (11, "-")];
        let wanted: BTreeSet<(u16, char)> =
            wanted.iter().flat_map(|&(number, letters)| letters.chars().map(move |letter| (number, letter))).collect();
        assert_eq!(refused, wanted);
        assert_eq!(dangerous, BTreeSet::from([false, true]));
        assert_eq!(most_open, law::MOST_OPEN);
    }
}
