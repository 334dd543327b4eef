//! Wrong programs for the session report, each of which the comparison has to catch, and the oracle on examples.

use super::*;
use crate::subject::fill_at_least as fill;

fn mark(candidate: u16, question: u16, gained: u16, possible: u16) -> Mark {
    Mark { candidate, question, gained, possible }
}

/// So many lists show what a wrong program does; every class of them is among so many.
const LISTS: u64 = 2_000;

fn caught(operation: Operation) -> bool {
    compare_reports(operation, LISTS).is_err()
}

/// The report of a list that is not refused, by other records.
fn instead(marks: &[Mark], other: fn(&[Mark]) -> Vec<Mark>) -> Result<Vec<u8>, Refusal> {
    report(marks)?;
    report(&other(marks))
}

/// The lines of a list that is not refused, changed.
fn lines(marks: &[Mark], change: fn(&mut Vec<Vec<u8>>)) -> Result<Vec<u8>, Refusal> {
    let mut lines: Vec<Vec<u8>> = report(marks)?.chunks(LINE).map(<[u8]>::to_vec).collect();
    change(&mut lines);
    Ok(lines.concat())
}

#[test]
fn the_oracle_itself_passes() {
    let compared = compare_reports(&|marks, buffer| fill(report(marks), 0, buffer), LISTS);
    assert!(compared.is_ok(), "{compared:?}");
}

#[test]
fn mutants_are_caught() {
    assert!(
        caught(&|marks, buffer| fill(instead(marks, |marks| marks[..marks.len().saturating_sub(1)].to_vec()), 0, buffer)),
        "the last left out"
    );
    let last_of_999 = |marks: &[Mark]| instead(marks, |marks| marks[..marks.len().min(998)].to_vec());
    assert!(caught(&|marks, buffer| fill(last_of_999(marks), 0, buffer)), "the last of 999 left out");
    let exchanged = |marks: &[Mark]| lines(marks, |lines| lines.iter_mut().for_each(|line| line[6..16].rotate_left(5)));
    assert!(caught(&|marks, buffer| fill(exchanged(marks), 0, buffer)), "gained and possible exchanged");
    let twice = |marks: &[Mark]| lines(marks, |lines| lines.insert(0, lines[0].clone()));
    assert!(caught(&|marks, buffer| fill(twice(marks), 0, buffer)), "a line twice");
    let falling = |marks: &[Mark]| {
        lines(marks, |lines| {
            let last = lines.len() - 1;
            lines[..last].reverse();
        })
    };
    assert!(caught(&|marks, buffer| fill(falling(marks), 0, buffer)), "falling order");
    let order = |marks: &[Mark]| match marks.iter().position(|mark| !right(mark)) {
        Some(place) => Err(Refusal { number: 18, line: place as u16 + 1 }),
        None => report(marks),
    };
    assert!(caught(&|marks, buffer| fill(order(marks), 0, buffer)), "18 before 19");
    let from_zero = |marks: &[Mark]| {
        report(marks)
            .map_err(|refusal| Refusal { number: refusal.number, line: refusal.line.saturating_sub(u16::from(refusal.number == 18)) })
    };
    assert!(caught(&|marks, buffer| fill(from_zero(marks), 0, buffer)), "the place from 0");
    assert!(caught(&|marks, buffer| fill(report(marks), (marks.len() + 1) * LINE, buffer)), "9 by the number of records");
    let narrow = |marks: &[Mark]| {
        let low: Vec<Mark> = marks.iter().map(|mark| Mark { gained: mark.gained & 255, possible: mark.possible & 255, ..*mark }).collect();
        report(&low)
    };
    assert!(caught(&|marks, buffer| fill(narrow(marks), 0, buffer)), "only the lower byte of the marks looked at");
}

#[test]
fn examples() {
    let session = [mark(700, 2, 10, 10), mark(31, 1, 7, 20), mark(700, 1, 0, 20), mark(31, 2, 10, 10), mark(31, 2, 1, 10)];
    let text = "M   31   18   40     \nM  700   10   30     \nZ   28   70          \n";
    assert_eq!(report(&session), Ok(text.as_bytes().to_vec()));
    assert_eq!(report(&[]), Ok(b"Z    0    0          \n".to_vec()));
    let refused = |wrong: Mark| report(&[&session[..], &[wrong]].concat()).unwrap_err();
    for wrong in [mark(0, 1, 0, 0), mark(10_000, 1, 0, 0), mark(1, 0, 0, 0), mark(1, 100, 0, 0), mark(1, 1, 2, 1), mark(1, 1, 0, 101)] {
        assert_eq!(refused(wrong), Refusal { number: 18, line: 6 });
    }
    let full = vec![mark(9999, 99, 100, 100); 1000];
    assert_eq!(report(&full[1..]), Ok(b"M 99999990099900     \nZ9990099900          \n".to_vec()));
    assert_eq!(report(&full), Err(Refusal { number: 19, line: 0 }));
    let wrong = vec![mark(0, 0, 0, 0); 1000];
    assert_eq!(report(&wrong), Err(Refusal { number: 19, line: 0 }));
    assert_eq!(report(&wrong[1..]), Err(Refusal { number: 18, line: 1 }));
}
