//! The opening question of a paper (02, Item 6): can the station be made safe at all? It takes any number of open signals.

use judge::{Refusal, State};

use crate::ask::{self, Best};
use crate::doc::{Part, Words};
use crate::model::{Station, counted, counted_are, grouped};
use crate::words::{all_settings, station_parts, why_none_safe};

/// The answer to the opening question; with a yes, the first safe setting of the turnouts, every open signal at stop.
pub fn answer(file: &[u8], station: &Station) -> Result<Option<Best>, Refusal> {
    if judge::can_be_safe(file)? { ask::settings(&stopped(station).file()?) } else { Ok(None) }
}

/// The station with every open signal at stop: what is left open are its turnouts.
fn stopped(station: &Station) -> Station {
    let states = station.elements().map(
        |(number, element, state)| {
            if station.is_open(number) && !element.is_turnout() { State::Two } else { state }
        },
    );
    station.under(&states.collect::<Vec<_>>())
}

/// "turnout 3, diverted" of each open turnout in a setting, and that the open signals are at stop.
pub fn found_parts(station: &Station, found: &Best) -> Vec<Part> {
    let under = station.under(&found.setting);
    let (turnouts, signals) = open_turnouts_and_signals(station);
    let mut lines: Vec<String> = turnouts.iter().map(|&number| under.element_words(number)).collect();
    match signals.len() {
        0 => {}
        1 => lines.push(under.element_words(signals[0])),
        many => lines.push(format!("all {many} open signals, stop")),
    }
    let mut parts = vec![Part::List(lines)];
    if !turnouts.is_empty() {
        let rest = if signals.is_empty() { "" } else { ", with every open signal at stop" };
        let all = counted_are(all_settings(turnouts.len()), "setting");
        parts.push(Part::Text(format!(
            "{} of {all} safe{rest}. The one shown is the first of them: straight before diverted, by the lowest number.",
            grouped(found.safe)
        )));
    }
    parts
}

fn open_turnouts_and_signals(station: &Station) -> (Vec<usize>, Vec<usize>) {
    station.open().into_iter().partition(|&number| station.filed.elements[number - 1].is_turnout())
}

/// The answer in words, where the settings question refuses the file.
pub fn parts(words: &mut Words, station: &Station, refusal: Refusal, found: Option<&Best>) {
    let (turnouts, signals) = open_turnouts_and_signals(station);
    words.text(format!(
        "The opening question of a paper: {} and {} are open, and is any setting of them safe?",
        counted(signals.len(), "signal"),
        counted(turnouts.len(), "turnout")
    ));
    words.text(format!(
        "The settings question takes at most {} open elements: it refuses the file with {}, line {}, and so does the key.",
        judge::MAX_OPEN,
        refusal.number(),
        refusal.line()
    ));
    station_parts(words, station);
    match found {
        Some(found) => {
            words.heading("A safe setting");
            words.parts.extend(found_parts(station, found));
            words.text("A signal at stop only takes moves away: what any setting makes safe is safe with every open signal at stop.");
        }
        None => why_none_safe(words, station),
    }
}
