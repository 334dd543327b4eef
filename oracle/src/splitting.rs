//! Splitting a question (02, Item 12): one open element fixed, at 1 in the first part and at 2 in the second, and the three answers of the
//! library compared as the request says.

use judge::MAX_ELEMENTS;
use judge::ffi::{self, SettingsAnswer};
use oracle::generate;

/// So many files are generated; those that are accepted with one to twelve open elements are split at each open element.
const FILES: u64 = 6_000;

/// The file with the state of an element (from 0) written as this digit: field 3 of an L line, field 4 of a D line.
fn part(file: &[u8], plain: usize, element: usize, digit: u8) -> Vec<u8> {
    let line = 22 * (1 + plain + element);
    let place = line + if file[line] == b'L' { 15 } else { 20 };
    let mut part = file.to_vec();
    part[place] = digit;
    part
}

/// The answer, and the setting shown; nothing is shown where no setting is safe.
fn ask(file: &[u8], elements: usize) -> (SettingsAnswer, Vec<u8>) {
    let mut buffer = [7; MAX_ELEMENTS];
    let answer = ffi::settings(file, &mut buffer);
    let shown = if answer.safe == 0 { Vec::new() } else { buffer[..elements].to_vec() };
    (answer, shown)
}

/// The proceed count and the setting that the whole has to have, from those of its parts.
fn wanted(gain: u16, first: &(SettingsAnswer, Vec<u8>), second: &(SettingsAnswer, Vec<u8>)) -> (u16, Vec<u8>) {
    let first_count = first.0.proceed + gain;
    let second_count = second.0.proceed;
    match (first.0.safe > 0, second.0.safe > 0) {
        (false, false) => (0, Vec::new()),
        (true, false) => (first_count, first.1.clone()),
        (false, true) => (second_count, second.1.clone()),
        (true, true) if first_count > second_count => (first_count, first.1.clone()),
        (true, true) if first_count < second_count => (second_count, second.1.clone()),
        // 1 comes before 2 at the first element where they differ.
        (true, true) => (first_count, first.1.clone().min(second.1.clone())),
    }
}

/// How many answers were compared, or the first that differs.
pub fn compare() -> Result<u64, String> {
    let mut compared = 0;
    for index in 0..FILES {
        let file = generate::case(index).file;
        let reading = ffi::read(&file);
        let situation = &reading.situation;
        let (plain, elements) = (usize::from(situation.plain), usize::from(situation.elements));
        let open: Vec<usize> = (0..elements).filter(|&element| situation.element_state[element] == 0).collect();
        if reading.refusal.number != 0 || open.is_empty() || open.len() > 12 {
            continue;
        }
        let whole = ask(&file, elements);
        for &element in &open {
            let (first_file, second_file) = (part(&file, plain, element, b'1'), part(&file, plain, element, b'2'));
            let (first, second) = (ask(&first_file, elements), ask(&second_file, elements));
            let split = format!("file {index} split at element {}", element + 1);
            for (state, file, answer) in [(1, &first_file, &first), (2, &second_file, &second)] {
                let mut fixed = situation.clone();
                fixed.element_state[element] = state;
                let part = ffi::read(file);
                if part.refusal.number != 0 || part.situation != fixed || answer.0.refusal.number != 0 {
                    return Err(format!("{split}: part {state} is not the question with that element fixed"));
                }
            }
            let gain = u16::from(situation.is_turnout[element] == 0);
            let (proceed, shown) = wanted(gain, &first, &second);
            let sum = first.0.safe + second.0.safe;
            if (whole.0.refusal.number, whole.0.safe, whole.0.proceed) != (0, sum, proceed) || whole.1 != shown {
                return Err(format!("{split}: {whole:?} of {first:?} and {second:?}"));
            }
            compared += 3;
        }
    }
    if compared == 0 { Err("no file was split".to_string()) } else { Ok(compared) }
}
