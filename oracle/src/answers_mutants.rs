//! Wrong programs for the standing answers, each of which the comparison has to catch, and the oracle on examples.

use super::*;
use crate::subject::fill_at_least as fill;

fn sent(candidate: u32, question: u32, sequence: u32, answer: u32) -> Sent {
    Sent { candidate, question, sequence, answer }
}

/// The standing answers with another choice among the lines of one candidate and question, and another order.
fn chosen<K: Ord>(log: &[u8], choose: fn(&[Sent]) -> Option<Sent>, order: fn(&Sent) -> K) -> Result<Vec<u8>, Refusal> {
    let mut groups: BTreeMap<(u32, u32), Vec<Sent>> = BTreeMap::new();
    for sent in lines(log)? {
        groups.entry((sent.candidate, sent.question)).or_default().push(sent);
    }
    let mut list: Vec<Sent> = groups.values().filter_map(|group| choose(group)).collect();
    list.sort_by_key(order);
    Ok(list.into_iter().flat_map(text).collect())
}

fn highest(group: &[Sent]) -> Option<Sent> {
    group.iter().copied().max_by_key(|sent| sent.sequence).filter(|sent| sent.answer != 0)
}

fn by_candidate(sent: &Sent) -> (u32, u32) {
    (sent.candidate, sent.question)
}

/// So many logs show what a wrong program does; every class of them is among so many.
const LOGS: u64 = 2_000;

fn caught(operation: Operation) -> bool {
    compare_answers(operation, LOGS).is_err()
}

#[test]
fn the_oracle_itself_passes() {
    let logs = compare_answers(&|log, buffer| fill(standing(log), 0, buffer), LOGS);
    assert!(logs.is_ok(), "{logs:?}");
    assert!(!caught(&|log, buffer| fill(chosen(log, highest, by_candidate), 0, buffer)));
}

#[test]
fn mutants_are_caught() {
    let first = |log: &[u8]| {
        chosen(log, |group| group.iter().copied().min_by_key(|sent| sent.sequence).filter(|sent| sent.answer != 0), by_candidate)
    };
    assert!(caught(&|log, buffer| fill(first(log), 0, buffer)), "the first answer kept");
    let last = |log: &[u8]| chosen(log, |group| group.last().copied().filter(|sent| sent.answer != 0), by_candidate);
    assert!(caught(&|log, buffer| fill(last(log), 0, buffer)), "the last line of the log kept");
    let withdrawn = |log: &[u8]| chosen(log, |group| group.iter().copied().max_by_key(|sent| sent.sequence), by_candidate);
    assert!(caught(&|log, buffer| fill(withdrawn(log), 0, buffer)), "a withdrawn one printed");
    let any_zero = |log: &[u8]| chosen(log, |group| highest(group).filter(|_| group.iter().all(|sent| sent.answer != 0)), by_candidate);
    assert!(caught(&|log, buffer| fill(any_zero(log), 0, buffer)), "a 0 at a lower sequence withdraws");
    let question = |log: &[u8]| chosen(log, highest, |sent| (sent.question, sent.candidate));
    assert!(caught(&|log, buffer| fill(question(log), 0, buffer)), "sorted by question first");
    assert!(caught(&|log, buffer| fill(standing(log), log.len(), buffer)), "9 by lines of the log");
}

/// 17 only where the sequence is the highest so far of its candidate and question.
fn only_highest(log: &[u8]) -> Result<Vec<u8>, Refusal> {
    if !log.len().is_multiple_of(LINE) || log.len() / LINE > MOST_LINES {
        return Err(Refusal { number: 16, line: 0 });
    }
    let mut kept: BTreeMap<(u32, u32), Sent> = BTreeMap::new();
    for (place, bytes) in log.chunks(LINE).enumerate() {
        let sent = line(bytes).ok_or(Refusal { number: 16, line: place as u16 + 1 })?;
        match kept.get(&by_candidate(&sent)) {
            Some(held) if held.sequence == sent.sequence => return Err(Refusal { number: 17, line: place as u16 + 1 }),
            Some(held) if held.sequence > sent.sequence => {}
            _ => {
                kept.insert(by_candidate(&sent), sent);
            }
        }
    }
    Ok(kept.into_values().filter(|sent| sent.answer != 0).flat_map(text).collect())
}

#[test]
fn seventeen_only_against_the_highest_is_caught() {
    assert!(caught(&|log, buffer| fill(only_highest(log), 0, buffer)));
}

#[test]
fn examples() {
    let log = [sent(7, 1, 1, 5), sent(3, 2, 9, 0), sent(7, 1, 3, 6), sent(7, 1, 2, 0), sent(3, 1, 4, 4097)];
    assert_eq!(standing(&bytes_of(&log)), Ok(bytes_of(&[sent(3, 1, 4, 4097), sent(7, 1, 3, 6)])));
    assert_eq!(standing(b""), Ok(vec![]));
    let refused = |more: &[Sent]| standing(&bytes_of(&[&log[..], more].concat())).unwrap_err();
    assert_eq!(refused(&[sent(7, 1, 1, 9)]), Refusal { number: 17, line: 6 });
    assert_eq!(refused(&[sent(3, 2, 9, 0)]), Refusal { number: 17, line: 6 });
    assert_eq!(refused(&[sent(7, 100, 1, 9), sent(7, 1, 1, 9)]), Refusal { number: 16, line: 6 });
    assert_eq!(refused(&[sent(1, 1, 1, 4098)]), Refusal { number: 16, line: 6 });
    let all: Vec<Sent> = (1..=1001).map(|sequence| sent(1, 1, sequence, 1)).collect();
    assert_eq!(standing(&bytes_of(&all)), Err(Refusal { number: 16, line: 0 }));
    assert_eq!(standing(&bytes_of(&all[..1000])), Ok(text(sent(1, 1, 1000, 1))));
    assert_eq!(standing(&bytes_of(&log)[1..]), Err(Refusal { number: 16, line: 0 }));
}
