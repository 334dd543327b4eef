//! The questions that are put to the library. Every answer that this program shows comes through here.

use judge::{MAX_ELEMENTS, MAX_SECTIONS, Refusal, Section, Settings, State, Verdict};

use crate::model::Station;
use crate::opening;

/// Two trains that can meet.
#[derive(Clone, Debug, PartialEq, Eq, Hash)]
pub struct Danger {
    pub trains: [usize; 2],
    pub meeting: Section,
    /// A path of each train to the meeting section.
    pub paths: [Vec<Section>; 2],
}

impl Danger {
    /// "trains 1 and 2 can both come to section 5"
    pub fn words(&self) -> String {
        format!("trains {} and {} can both come to section {}", self.trains[0], self.trains[1], self.meeting)
    }
}

/// A verdict with its lists.
#[derive(Clone, Debug, PartialEq, Eq)]
pub struct Judged {
    /// `None` when safe.
    pub danger: Option<Danger>,
    pub entries: u32,
    pub looks: u32,
}

impl Judged {
    /// "Entries 6, looks 6."
    pub fn counts_words(&self) -> String {
        format!("Entries {}, looks {}.", self.entries, self.looks)
    }

    /// A verdict in a cell of a table: "safe", or "dangerous, 1 and 2 meet in 5".
    pub fn short_words(&self) -> String {
        match &self.danger {
            Some(danger) => format!("dangerous, {} and {} meet in {}", danger.trains[0], danger.trains[1], danger.meeting),
            None => String::from("safe"),
        }
    }
}

/// The best of the safe settings.
#[derive(Clone, Debug, PartialEq, Eq)]
pub struct Best {
    pub safe: usize,
    pub proceed: usize,
    pub setting: Vec<State>,
}

/// What the key of a file says, with the station where the file was read.
#[derive(Clone, Debug, PartialEq, Eq)]
pub enum Answer {
    /// Refused by the reader.
    Refused(Refusal),
    /// Read, and refused by the settings question and by the opening question.
    TooManyOpen(Station, Refusal),
    /// Read, and refused by the settings question: what the opening question says, with a safe setting or none.
    Opening(Station, Refusal, Option<Best>),
    Judged(Station, Judged),
    /// With open elements; `None` where no setting is safe.
    Set(Station, Option<Best>),
}

impl Answer {
    /// The station, where the file was read.
    pub fn station(&self) -> Option<&Station> {
        match self {
            Answer::Refused(_) => None,
            Answer::TooManyOpen(station, _) | Answer::Opening(station, ..) | Answer::Judged(station, _) | Answer::Set(station, _) => {
                Some(station)
            }
        }
    }

    pub fn refusal(&self) -> Option<Refusal> {
        match self {
            Answer::Refused(refusal) | Answer::TooManyOpen(_, refusal) => Some(*refusal),
            Answer::Opening(..) | Answer::Judged(..) | Answer::Set(..) => None,
        }
    }
}

/// The answer to a file.
pub fn answer(file: &[u8]) -> Answer {
    let station = match judge::read(file) {
        Ok(situation) => Station::new(situation),
        Err(refusal) => return Answer::Refused(refusal),
    };
    if station.filed.open_elements().next().is_none() {
        return match verdict(file) {
            Ok(judged) => Answer::Judged(station, judged),
            Err(refusal) => Answer::Refused(refusal),
        };
    }
    match settings(file) {
        Ok(best) => Answer::Set(station, best),
        Err(refusal) => match opening::answer(file, &station) {
            Ok(found) => Answer::Opening(station, refusal, found),
            Err(_) => Answer::TooManyOpen(station, refusal),
        },
    }
}

/// The setting that an answer has, if any.
pub fn setting(answer: &Answer) -> Option<&Vec<State>> {
    match answer {
        Answer::Set(_, Some(best)) | Answer::Opening(_, _, Some(best)) => Some(&best.setting),
        _ => None,
    }
}

/// The verdict of a file.
pub fn verdict(file: &[u8]) -> Result<Judged, Refusal> {
    let (mut first, mut second) = ([Section(0); MAX_SECTIONS], [Section(0); MAX_SECTIONS]);
    let verdict = judge::verdict(file, &mut first, &mut second)?;
    let danger = match verdict {
        Verdict::Safe { .. } => None,
        Verdict::Dangerous { first, second, meeting, first_path, second_path, .. } => Some(Danger {
            trains: [usize::from(first.get()), usize::from(second.get())],
            meeting,
            paths: [first_path.to_vec(), second_path.to_vec()],
        }),
    };
    let counts = verdict.counts();
    Ok(Judged { danger, entries: counts.entries, looks: counts.looks })
}

/// The reply to the settings question.
pub fn settings(file: &[u8]) -> Result<Option<Best>, Refusal> {
    let mut list = [State::Open; MAX_ELEMENTS];
    Ok(match judge::settings(file, &mut list)? {
        Settings::NoneSafe => None,
        Settings::Best { safe, proceed, setting } => {
            Some(Best { safe: usize::from(safe), proceed: usize::from(proceed), setting: setting.to_vec() })
        }
    })
}

/// The verdict of a station under a setting, by the file that the library writes of it.
pub fn verdict_under(station: &Station, setting: &[State]) -> Result<Judged, Refusal> {
    verdict(&station.under(setting).file()?)
}

/// The verdict of a station as it is shown, with one of its trains alone: the counts of that train.
pub fn verdict_of_train(station: &Station, number: usize) -> Result<Judged, Refusal> {
    let mut alone = station.clone();
    alone.filed.trains = station.filed.trains.get(number - 1).cloned().into_iter().collect();
    verdict(&alone.file()?)
}

/// A frame of the walk through all settings.
pub fn frame(file: &[u8], number: u64) -> Result<Vec<State>, Refusal> {
    let mut list = [State::Open; MAX_ELEMENTS];
    Ok(judge::frame(file, number, &mut list)?.to_vec())
}
