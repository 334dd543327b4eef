//! The answer to a file in plain words.

use judge::{ElementLine, Refusal, Section, State};

use crate::ask::{self, Answer, Best, Danger, Judged};
use crate::cause::{self, Shown};
use crate::doc::{Outcome, Part, Table, Words};
use crate::model::{Station, counted, counted_are, grouped, in_a_row, listed, named, other, place, sort, word};
use crate::moves::Moves;
use crate::opening;

/// How the answer to a file came out, and one sentence of it.
pub fn summary(answer: &Answer) -> (Outcome, String) {
    match answer {
        Answer::Refused(refusal) | Answer::TooManyOpen(_, refusal) => (Outcome::Refused, refusal_summary(*refusal)),
        Answer::Opening(_, _, Some(_)) => (Outcome::CanBeSafe, String::from("Can be made safe: yes.")),
        Answer::Opening(_, _, None) => (Outcome::CannotBeSafe, String::from("Can be made safe: no.")),
        Answer::Judged(_, Judged { danger: Some(danger), .. }) => (Outcome::Dangerous, format!("Dangerous: {}.", danger.words())),
        Answer::Judged(station, _) => {
            let why = match station.filed.trains.len() {
                0 => "there is no train",
                1 => "there is one train only",
                2 => "the two trains can come to no section in common",
                _ => "no two trains can come to one section",
            };
            (Outcome::Safe, format!("Safe: {why}."))
        }
        Answer::Set(station, Some(best)) => {
            let all = counted_are(all_settings(station.open().len()), "setting");
            (Outcome::Open, format!("Open: {} of {all} safe.", grouped(best.safe)))
        }
        Answer::Set(station, None) => match all_settings(station.open().len()) {
            2 => (Outcome::NoneSafe, String::from("No safe setting: neither of the 2 settings is safe.")),
            all => (Outcome::NoneSafe, format!("No safe setting: none of the {} settings is safe.", grouped(all))),
        },
    }
}

/// The answer to a file.
pub fn of_answer(answer: &Answer, file: &[u8]) -> Words {
    let (outcome, summary) = summary(answer);
    let mut words = Words { outcome, summary, parts: vec![] };
    if let Some(refusal) = answer.refusal() {
        words.parts = refusal_parts(refusal, &cause::of_station(refusal, file));
    }
    match answer {
        Answer::Refused(_) => {}
        Answer::TooManyOpen(station, _) => {
            words.text("The opening question, whether any setting is safe at all, refuses it too: more than twelve turnouts are open.");
            station_parts(&mut words, station);
        }
        Answer::Opening(station, refusal, found) => opening::parts(&mut words, station, *refusal, found.as_ref()),
        Answer::Judged(station, judged) => {
            station_parts(&mut words, station);
            verdict_parts(&mut words, station, judged);
        }
        Answer::Set(station, Some(best)) => {
            station_parts(&mut words, station);
            best_setting(&mut words, station, best);
        }
        Answer::Set(station, None) => {
            station_parts(&mut words, station);
            why_none_safe(&mut words, station);
            words.text(format!("Proceed count 0. {}", open_and_fixed(station)));
        }
    }
    words
}

fn refusal_summary(refusal: Refusal) -> String {
    format!("Refusal {}, {}.", refusal.number(), cause::where_found(refusal))
}

/// A refusal: number, meaning, line, and the line's text with a mark.
pub fn refused(refusal: Refusal, shown: &Shown) -> Words {
    Words { outcome: Outcome::Refused, summary: refusal_summary(refusal), parts: refusal_parts(refusal, shown) }
}

/// Meaning, marked lines and notes of a refusal.
pub fn refusal_parts(refusal: Refusal, shown: &Shown) -> Vec<Part> {
    let mut parts = vec![Part::Text(format!("{}: {}.", refusal.number(), refusal.meaning()))];
    parts.extend(shown.quotes.iter().cloned().map(Part::Quote));
    parts.extend(shown.notes.iter().cloned().map(Part::Text));
    parts
}

/// The counts and the trains.
pub fn station_parts(words: &mut Words, station: &Station) {
    words.heading("The station");
    let mut lines = vec![format!("{}.", station.counts())];
    lines.extend(station.trains().map(|(number, _)| format!("{} (line {})", station.train_words(number), station.train_line(number))));
    words.list(lines);
}

/// The paths, where they meet, and the counts.
fn verdict_parts(words: &mut Words, station: &Station, judged: &Judged) {
    if let Some(danger) = &judged.danger {
        path_parts(words, station, danger);
    }
    counts_part(words, station, judged);
}

/// Both paths step by step, each step with the lines and states that permit it.
fn path_parts(words: &mut Words, station: &Station, danger: &Danger) {
    for (letter, (train, path)) in ["A", "B"].iter().zip(danger.trains.iter().zip(&danger.paths)) {
        words.heading(format!("Path {letter}, of train {train}: {}", path_words(path)));
        let steps: Vec<String> = path.windows(2).map(|step| station.step(step[0], step[1])).collect();
        if steps.is_empty() {
            words.list(vec![format!("train {train} stands in section {} already", danger.meeting)]);
        } else {
            words.list(steps);
        }
    }
    words.heading("Where they meet");
    words.list(vec![format!("section {}, the lowest that both can come to", danger.meeting)]);
}

/// The sections of a path in a row; of a long one, its start and its end.
pub fn path_words(path: &[Section]) -> String {
    const START: usize = 10;
    const END: usize = 4;
    match path.len().checked_sub(END) {
        Some(end) if end > START + END => {
            format!("{} .. {} ({})", in_a_row(&path[..START]), in_a_row(&path[end..]), counted(path.len(), "section"))
        }
        _ => in_a_row(path),
    }
}

/// Entries and looks, train by train.
fn counts_part(words: &mut Words, station: &Station, judged: &Judged) {
    let last = judged.danger.as_ref().map_or(station.filed.trains.len(), |danger| danger.trains[1]);
    words.heading(match last {
        0 => String::from("Entries and looks"),
        1 => String::from("Entries and looks of train 1"),
        _ => format!("Entries and looks of trains 1 to {last}"),
    });
    let moves = Moves::of(station);
    let mut table = Table::new(&["train", "entries", "looks", "sections that it can come to"]);
    for number in 1..=last {
        if let (Ok(alone), Some(standing)) = (ask::verdict_of_train(station, number), station.filed.trains.get(number - 1)) {
            // The entries are the library's; the list is shown where it has as many.
            let reach = moves.reach(standing);
            let sections = if reach.len() == alone.entries as usize { first_ones(&reach) } else { String::new() };
            table.row(vec![number.to_string(), alone.entries.to_string(), alone.looks.to_string(), sections]);
        }
    }
    table.row(vec![String::from("all"), judged.entries.to_string(), judged.looks.to_string(), String::new()]);
    words.table(table);
    words.text("Entries: how many sections these are. Looks: how many permitted moves leave one of them.");
    let after = station.filed.trains.len() - last;
    if after > 0 {
        let trains = if after == 1 {
            format!("Train {} does not count", last + 1)
        } else {
            format!("Trains {} to {} do not count", last + 1, last + after)
        };
        words.text(format!("{trains}: trains 1 to {last} are dangerous already."));
    }
}

/// Sections in a row; of many, the first ones.
fn first_ones(sections: &[usize]) -> String {
    const MOST: usize = 20;
    let words: Vec<String> = sections.iter().take(MOST).map(usize::to_string).collect();
    let more = sections.len().saturating_sub(MOST);
    if more == 0 { words.join(" ") } else { format!("{} and {more} more", words.join(" ")) }
}

/// "16 settings" of so many open elements.
pub fn all_settings(open: usize) -> usize {
    1 << open
}

/// The setting shown, element by element.
fn best_setting(words: &mut Words, station: &Station, best: &Best) {
    words.heading("The setting shown");
    let mut table = Table::new(&["element", "sort", "over", "state", "in the file", "in its other state"]);
    for (number, element, _) in station.elements() {
        let state = best.setting.get(number - 1).copied().unwrap_or_default();
        let (filed, instead) = match element.state() {
            State::Open => (String::from("open"), other_state(station, best, number, element)),
            _ => (String::from("fixed"), String::new()),
        };
        table.row(vec![
            number.to_string(),
            String::from(sort(element)),
            place(element),
            String::from(word(element, state)),
            filed,
            instead,
        ]);
    }
    words.table(table);
    let at_proceed: Vec<usize> = station
        .elements()
        .filter(|&(number, element, _)| {
            element.state().is_open() && !element.is_turnout() && best.setting.get(number - 1) == Some(&State::One)
        })
        .map(|(number, _, _)| number)
        .collect();
    let signals = if at_proceed.is_empty() {
        String::from("no open signal is at proceed")
    } else {
        format!("open {} at proceed", named("signal", &at_proceed))
    };
    words.text(format!("Proceed count {}: {signals}.", best.proceed));
    words.text(
        "No safe setting has a higher count; of those with the same, it is the one with state 1 at the first element where they differ.",
    );
    words.text(open_and_fixed(station));
}

/// What the library says where one open element of the setting shown is in its other state.
fn other_state(station: &Station, best: &Best, number: usize, element: &ElementLine) -> String {
    let mut setting = best.setting.clone();
    if let Some(state) = setting.get_mut(number - 1) {
        *state = other(*state);
        let name = word(element, *state);
        return match ask::verdict_under(station, &setting) {
            Ok(Judged { danger: None, .. }) => format!("{name}: safe too"),
            Ok(judged) => format!("{name}: {}", judged.short_words()),
            Err(refusal) => refusal.to_string(),
        };
    }
    String::new()
}

fn open_and_fixed(station: &Station) -> String {
    format!("Open: {}. Fixed: {}.", listed(&station.open()), listed(&station.fixed()))
}

/// How many settings of the turnouts are shown where none is safe.
const SHOWN_TURNOUTS: usize = 8;

/// Why no setting is safe: what the open turnouts come to with every open signal at stop.
pub fn why_none_safe(words: &mut Words, station: &Station) {
    let open = station.open();
    words.heading("Why");
    let turnouts: Vec<usize> = open.iter().copied().filter(|&number| station.filed.elements[number - 1].is_turnout()).collect();
    words.text(match turnouts.len() {
        0 => String::from("A signal at stop only takes moves away, and with every open signal at stop it is dangerous:"),
        _ => String::from(
            "A signal at stop only takes moves away, and with every open signal at stop it is dangerous whatever the open turnouts are:",
        ),
    });
    let ways = all_settings(turnouts.len());
    let mut lines = Vec::new();
    for way in 0..ways.min(SHOWN_TURNOUTS) {
        let mut setting: Vec<State> = station.elements().map(|(_, _, state)| if state.is_open() { State::Two } else { state }).collect();
        for (place, &number) in turnouts.iter().rev().enumerate() {
            setting[number - 1] = if way >> place & 1 == 0 { State::One } else { State::Two };
        }
        let under = station.under(&setting);
        let states: Vec<String> = turnouts.iter().map(|&number| under.element_words(number)).collect();
        let states = if states.is_empty() { String::new() } else { format!("{}: ", states.join("; ")) };
        if let Ok(Judged { danger: Some(danger), .. }) = ask::verdict_under(station, &setting) {
            lines.push(format!("{states}{}, by {} and {}", danger.words(), path_words(&danger.paths[0]), path_words(&danger.paths[1])));
        }
    }
    words.list(lines);
    if ways > SHOWN_TURNOUTS {
        words.text(format!("and so in the other {} settings of the open turnouts.", grouped(ways - SHOWN_TURNOUTS)));
    }
}

/// The verdict of a setting that somebody asked for, in the words of a verdict.
pub fn of_setting(station: &Station, setting: &[State]) -> Vec<Part> {
    let under = station.under(setting);
    match ask::verdict_under(station, setting) {
        Ok(judged) => {
            let mut words = Words { outcome: Outcome::Safe, summary: String::new(), parts: vec![] };
            words.text(match &judged.danger {
                Some(danger) => format!("Dangerous: {}.", danger.words()),
                None => String::from("Safe."),
            });
            verdict_parts(&mut words, &under, &judged);
            words.parts
        }
        Err(refusal) => vec![Part::Text(format!("{refusal}."))],
    }
}

#[cfg(test)]
mod tests {
    use super::*;

    #[test]
    fn a_long_path_is_shortened() {
        let path = |sections: std::ops::RangeInclusive<u16>| sections.map(Section).collect::<Vec<_>>();
        assert_eq!(path_words(&path(1..=5)), "1 2 3 4 5");
        assert_eq!(path_words(&path(1..=18)), "1 2 3 4 5 6 7 8 9 10 11 12 13 14 15 16 17 18");
        assert_eq!(path_words(&path(1..=19)), "1 2 3 4 5 6 7 8 9 10 .. 16 17 18 19 (19 sections)");
        assert_eq!(path_words(&[]), "");
    }

    #[test]
    fn many_sections_are_cut() {
        assert_eq!(first_ones(&[1, 2, 5]), "1 2 5");
        assert!(first_ones(&(1..=25).collect::<Vec<_>>()).ends_with("19 20 and 5 more"));
    }
}
