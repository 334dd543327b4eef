//! Refusals of a log of answers.

use judge::Refusal;

use super::{Shown, capitalised, field_name, first_uneven, old_form, quote};
use crate::columns::{line, lines, numbers};
use crate::model::{counted, grouped};

/// Shows the cause of refusal 16 or 17 of a log of answers.
pub fn of_log(refusal: Refusal, log: &[u8]) -> Shown {
    let shown = of_line(refusal, log);
    if refusal.number() == 16 { shown.stored(log) } else { shown }
}

fn of_line(refusal: Refusal, log: &[u8]) -> Shown {
    const RANGES: [(usize, usize); 4] = [(1, 9999), (1, 99), (1, 99_999), (0, 4097)];
    let line_number = usize::from(refusal.line());
    let text = line(log, line_number);
    if refusal.number() == 17 {
        let key = numbers(text);
        let same = |earlier: &[u8]| numbers(earlier).iter().take(3).eq(key.iter().take(3));
        let earlier = lines(log).take(line_number - 1).position(same);
        let shown = Shown::field(log, line_number, 3, "This sequence was already seen for the same candidate and question.");
        return match earlier {
            Some(place) => Shown {
                quotes: [shown.quotes, vec![quote(log, place + 1, &[1, 2, 3])]].concat(),
                notes: vec![format!("Line {} has the same candidate, question and sequence.", place + 1)],
            },
            None => shown,
        };
    }
    if line_number == 0 {
        let rest = log.len() % judge::LINE_SIZE;
        let whole = counted(log.len() / judge::LINE_SIZE, "line");
        return if rest == 0 {
            Shown::note(format!("The log has {whole}; at most 1,000 are taken."))
        } else {
            let shown =
                Shown::note(format!("The log has {}: {whole} of 22 bytes and {} more.", counted(log.len(), "byte"), counted(rest, "byte")));
            match first_uneven(log) {
                Some((quote, note)) => Shown { quotes: vec![quote], ..shown.also(note) },
                None => shown,
            }
        };
    }
    if text.first() != Some(&b'C') {
        return Shown::letter(log, line_number, "Each line of a log is a C line.");
    }
    if let Some(shown) = old_form(log, line_number, text, b'C') {
        return shown;
    }
    for (place, (number, (least, most))) in numbers(text).into_iter().zip(RANGES).enumerate() {
        if number < least || number > most {
            let note = format!("{} is {number}; it has to be {least} to {}.", capitalised(&field_name(b'C', place + 1)), grouped(most));
            return Shown::field(log, line_number, place + 1, note);
        }
    }
    Shown { quotes: vec![quote(log, line_number, &[1, 2, 3, 4])], notes: vec![] }
}
