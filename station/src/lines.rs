//! Answers in lines of 22 bytes, as the programs of the judge print them.

use judge::{Letter, Refusal, Section};

use crate::doc::{Outcome, Table, Words};
use crate::model::counted;

/// The R line of a refusal.
pub fn refusal(refusal: Refusal) -> Vec<u8> {
    format!("R{:>5}{:>5}{:10}\n", refusal.number(), refusal.line(), "").into_bytes()
}

/// A station file with another first letter (02, Item 5).
pub fn converted(file: &[u8], to: Letter) -> Result<Vec<u8>, Refusal> {
    let mut buffer = vec![0; file.len()];
    let converted = match to {
        Letter::S => judge::to_s(file, &mut buffer),
        Letter::U => judge::to_u(file, &mut buffer),
    };
    Ok(converted?.to_vec())
}

/// A request to place trains (02, Item 14).
#[derive(Clone, Copy, Debug, PartialEq, Eq)]
pub struct Placing {
    pub paper: u64,
    pub sections: u16,
    pub trains: u16,
}

impl Placing {
    /// The section of each train, and the state after the last draw.
    fn placed(self) -> Result<(Vec<Section>, u64), Refusal> {
        let mut list = vec![Section(0); usize::from(self.trains)];
        let placement = judge::place(self.paper, self.sections, self.trains, &mut list)?;
        Ok((placement.sections.to_vec(), placement.state))
    }

    /// The T line of each train.
    pub fn lines(self) -> Result<Vec<u8>, Refusal> {
        let (sections, _) = self.placed()?;
        Ok(sections.iter().map(|section| format!("T{section:>5}{:15}\n", "")).collect::<String>().into_bytes())
    }

    /// The same in a table.
    pub fn words(self) -> Result<Words, Refusal> {
        let (sections, state) = self.placed()?;
        let summary = format!("{} in a station of {}.", counted(sections.len(), "train"), counted(usize::from(self.sections), "section"));
        let mut words = Words { outcome: Outcome::Safe, summary, parts: vec![] };
        let mut table = Table::new(&["train", "section"]);
        for (place, section) in sections.iter().enumerate() {
            table.row(vec![(place + 1).to_string(), section.to_string()]);
        }
        words.table(table);
        words.text(format!("State after the last draw: {state}. As a paper number it goes on from there."));
        Ok(words)
    }
}
