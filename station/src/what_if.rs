//! What must not be touched: what comes of each element in its other state alone. Each answer is the library's, for the file with that state.

use judge::{Refusal, State};

use crate::ask::{self, Judged};
use crate::doc::{Part, Table};
use crate::model::{Station, counted, listed, other, place, sort, word};
use crate::words::path_words;

/// A station and what comes of each of its elements in its other state.
#[derive(Clone, Debug)]
pub struct WhatIf {
    /// With the states that are shown.
    pub station: Station,
    pub judged: Judged,
    /// The verdict with the other state of each element, by number.
    pub others: Vec<Judged>,
}

impl WhatIf {
    /// Asks the library; refused with 10 where an element is open in the states that are shown.
    pub fn new(station: &Station) -> Result<WhatIf, Refusal> {
        let judged = ask::verdict(&station.file()?)?;
        let others = (0..station.states.len()).map(|place| {
            let mut states = station.states.clone();
            states[place] = other(states[place]);
            ask::verdict_under(station, &states)
        });
        Ok(WhatIf { station: station.clone(), judged, others: others.collect::<Result<_, _>>()? })
    }

    /// The elements whose other state changes the verdict. Where it is safe, each of them keeps it so.
    pub fn changing(&self) -> Vec<usize> {
        let safe = self.judged.danger.is_none();
        (1..=self.others.len()).filter(|&number| self.others[number - 1].danger.is_none() != safe).collect()
    }

    /// The elements that keep the station safe.
    pub fn keeping(&self) -> Vec<usize> {
        if self.judged.danger.is_none() { self.changing() } else { vec![] }
    }

    /// One or two sentences of it.
    pub fn summary(&self) -> String {
        let changing: Vec<String> = self.changing().iter().map(|&number| self.named(number)).collect();
        match (&self.judged.danger, changing.len()) {
            (_, _) if self.others.is_empty() => String::from("The station has no element."),
            (None, 0) => String::from("No element keeps it safe alone: it stays safe with any one of them in its other state."),
            (None, 1) => format!("One element keeps it safe and must not be touched: {}.", changing[0]),
            (None, many) => format!("{} keep it safe and must not be touched: {}.", counted(many, "element"), listed(&changing)),
            (Some(_), 0) => String::from("It is dangerous, and stays so with any one element in its other state."),
            (Some(_), _) => format!("It is dangerous, and safe with one element alone in its other state: {}.", changing.join(", or ")),
        }
    }

    /// "signal 4"
    fn named(&self, number: usize) -> String {
        self.station.filed.elements.get(number - 1).map_or(String::new(), |element| format!("{} {number}", sort(element)))
    }

    /// What comes of an element in its other state.
    fn words(&self, judged: &Judged) -> String {
        match (&judged.danger, &self.judged.danger) {
            (None, None) => String::from("still safe"),
            (None, Some(_)) => String::from("safe then"),
            (Some(danger), before) => {
                let [one, two] = [&danger.paths[0], &danger.paths[1]].map(|path| path_words(path));
                let still = if before.is_some() { "still dangerous" } else { "dangerous" };
                format!("{still}, {}, by {one} and {two}", danger.words())
            }
        }
    }

    /// All of it.
    pub fn parts(&self) -> Vec<Part> {
        let mut table = Table::new(&["element", "sort", "over", "state", "in its other state"]);
        for ((number, element, state), judged) in self.station.elements().zip(&self.others) {
            let state_words = match self.station.is_open(number) {
                true => format!("{}, open in the file", word(element, state)),
                false => String::from(word(element, state)),
            };
            table.row(vec![
                number.to_string(),
                String::from(sort(element)),
                place(element),
                state_words,
                format!("{}: {}", word(element, other(state)), self.words(judged)),
            ]);
        }
        let mut parts = vec![Part::Heading(String::from("What if an element is in its other state?")), Part::Text(self.summary())];
        if !self.others.is_empty() {
            parts.push(Part::Table(table));
        }
        parts
    }
}

/// What is said where an element is open and no setting is chosen.
pub const NO_SETTING: &str = "No safe setting is shown, so that there is none to keep. --setting says which one is to be looked at.";

/// The parts of a station as it is shown.
pub fn parts(station: &Station) -> Vec<Part> {
    match WhatIf::new(station) {
        Ok(what_if) => what_if.parts(),
        Err(_) if station.states.contains(&State::Open) => {
            vec![Part::Heading(String::from("What if an element is in its other state?")), Part::Text(String::from(NO_SETTING))]
        }
        Err(refusal) => vec![Part::Text(format!("{refusal}."))],
    }
}
