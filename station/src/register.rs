//! The register: the name of each file and the answer to it on one line, for programs that read it.

use std::ffi::OsStr;
use std::os::unix::ffi::OsStrExt;

use judge::{Cause, Counts, MAX_ELEMENTS, MAX_SECTIONS, Refusal, Section, Settings, State, Train, Verdict};

use crate::columns::{field, line, lines, number, numbers};
use crate::csv;
use crate::json::Json;
use crate::model::Station;
use crate::opening;
use crate::source::escaped;

/// What the library says of a file, without paths.
#[derive(Clone, Debug, PartialEq, Eq)]
pub enum Finding {
    Dangerous {
        trains: [Train; 2],
        meeting: Section,
        counts: Counts,
    },
    Safe {
        counts: Counts,
    },
    /// With open elements: how many settings are safe, the proceed count, and the elements that are open with the states of the setting chosen.
    Open {
        safe: u16,
        proceed: u16,
        setting: Vec<(usize, State)>,
    },
    NoneSafe,
    /// With more open elements than the settings question takes: what the opening question says, with the elements that are open and their states in a
    /// safe setting.
    CanBeSafe {
        setting: Vec<(usize, State)>,
    },
    CannotBeSafe,
    Refused(Refusal),
    /// The file cannot be read, and why.
    Unreadable(String),
}

impl Finding {
    /// The finding of a file.
    pub fn of(file: &[u8]) -> Finding {
        let (mut first, mut second) = ([Section(0); MAX_SECTIONS], [Section(0); MAX_SECTIONS]);
        match judge::verdict(file, &mut first, &mut second) {
            Ok(Verdict::Dangerous { first, second, meeting, counts, .. }) => {
                Finding::Dangerous { trains: [first, second], meeting, counts }
            }
            Ok(Verdict::Safe { counts }) => Finding::Safe { counts },
            Err(refusal) if refusal.cause() == Cause::ElementOpen => Finding::of_open(file),
            Err(refusal) => Finding::Refused(refusal),
        }
    }

    /// The finding of a file with open elements.
    fn of_open(file: &[u8]) -> Finding {
        let mut list = [State::Open; MAX_ELEMENTS];
        match judge::settings(file, &mut list) {
            Ok(Settings::Best { safe, proceed, setting }) => {
                let setting = open_elements(file).into_iter().filter_map(|number| Some((number, *setting.get(number - 1)?))).collect();
                Finding::Open { safe, proceed, setting }
            }
            Ok(Settings::NoneSafe) => Finding::NoneSafe,
            Err(refusal) => Finding::of_opening(file).unwrap_or(Finding::Refused(refusal)),
        }
    }

    /// What the opening question says, where it is not refused.
    fn of_opening(file: &[u8]) -> Option<Finding> {
        let station = Station::new(judge::read(file).ok()?);
        Some(match opening::answer(file, &station).ok()? {
            Some(found) => {
                let setting = station.open().into_iter().filter_map(|number| Some((number, *found.setting.get(number - 1)?))).collect();
                Finding::CanBeSafe { setting }
            }
            None => Finding::CannotBeSafe,
        })
    }

    /// Whether the file was read and judged, refused, or could not be read.
    pub fn answer(&self) -> &'static str {
        match self {
            Finding::Refused(_) => "refused",
            Finding::Unreadable(_) => "unreadable",
            _ => "accepted",
        }
    }

    /// The verdict of an accepted file, in a word.
    pub fn verdict(&self) -> Option<&'static str> {
        match self {
            Finding::Dangerous { .. } => Some("dangerous"),
            Finding::Safe { .. } => Some("safe"),
            Finding::Open { .. } => Some("open"),
            Finding::NoneSafe => Some("none safe"),
            Finding::CanBeSafe { .. } => Some("can be safe"),
            Finding::CannotBeSafe => Some("cannot be safe"),
            Finding::Refused(_) | Finding::Unreadable(_) => None,
        }
    }

    fn refusal(&self) -> Option<Refusal> {
        if let Finding::Refused(refusal) = self { Some(*refusal) } else { None }
    }

    fn danger(&self) -> Option<([Train; 2], Section)> {
        if let Finding::Dangerous { trains, meeting, .. } = *self { Some((trains, meeting)) } else { None }
    }

    fn counts(&self) -> Option<Counts> {
        match *self {
            Finding::Dangerous { counts, .. } | Finding::Safe { counts } => Some(counts),
            _ => None,
        }
    }

    /// The number of safe settings, and the proceed count.
    fn safe(&self) -> Option<[u16; 2]> {
        match *self {
            Finding::Open { safe, proceed, .. } => Some([safe, proceed]),
            Finding::NoneSafe => Some([0, 0]),
            _ => None,
        }
    }

    fn setting(&self) -> Option<&[(usize, State)]> {
        if let Finding::Open { setting, .. } | Finding::CanBeSafe { setting } = self { Some(setting) } else { None }
    }

    /// Why there is no answer.
    fn why(&self) -> Option<&str> {
        match self {
            Finding::Refused(refusal) => Some(refusal.meaning()),
            Finding::Unreadable(why) => Some(why),
            _ => None,
        }
    }

    /// Its fields in an object of JSON.
    pub fn fields(&self) -> Vec<(&'static str, Json)> {
        let danger = self.danger();
        let state = |state: State| u16::from(u8::from(state));
        vec![
            ("answer", self.answer().into()),
            ("refusal", self.refusal().into()),
            ("why", self.why().into()),
            ("verdict", self.verdict().into()),
            ("trains", danger.map(|(trains, _)| Json::list(trains.map(Train::get))).into()),
            ("meeting_section", danger.map(|(_, meeting)| meeting.get()).into()),
            ("entries", self.counts().map(|counts| counts.entries).into()),
            ("looks", self.counts().map(|counts| counts.looks).into()),
            ("safe_settings", self.safe().map(|[safe, _]| safe).into()),
            ("proceed_count", self.safe().map(|[_, proceed]| proceed).into()),
            ("open", self.setting().map(|setting| Json::list(setting.iter().map(|&(number, _)| number))).into()),
            ("setting", self.setting().map(|setting| Json::list(setting.iter().map(|&(_, of)| state(of)))).into()),
        ]
    }

    /// Its row in a table of comma separated values.
    pub fn row(&self, name: &OsStr) -> String {
        fn text<T: ToString>(value: Option<T>) -> String {
            value.map_or(String::new(), |value| value.to_string())
        }
        let danger = self.danger();
        let setting = self.setting().unwrap_or_default().iter().map(|(_, state)| state.to_string()).collect::<Vec<_>>();
        csv::row(&[
            cell(name),
            String::from(self.answer()),
            text(self.refusal().map(Refusal::number)),
            text(self.refusal().map(Refusal::line)),
            text(self.verdict()),
            text(danger.map(|([first, _], _)| first)),
            text(danger.map(|([_, second], _)| second)),
            text(danger.map(|(_, meeting)| meeting)),
            text(self.counts().map(|counts| counts.entries)),
            text(self.counts().map(|counts| counts.looks)),
            text(self.safe().map(|[safe, _]| safe)),
            text(self.safe().map(|[_, proceed]| proceed)),
            setting.join(" "),
            text(self.why()),
        ])
    }
}

/// The heading of the table.
pub fn heading() -> String {
    csv::row(
        &[
            "file",
            "answer",
            "refusal",
            "line",
            "verdict",
            "first train",
            "second train",
            "meeting section",
            "entries",
            "looks",
            "safe settings",
            "proceed count",
            "setting",
            "why",
        ]
        .map(String::from),
    )
}

/// The name of a file in a cell. What begins with = + - or @ is a formula for a spreadsheet, and names the same file with ./ before it.
fn cell(name: &OsStr) -> String {
    let dot = if matches!(name.as_bytes().first(), Some(b'=' | b'+' | b'-' | b'@')) { "./" } else { "" };
    format!("{dot}{}", escaped(name))
}

/// The numbers of the open elements of a file that was accepted.
fn open_elements(file: &[u8]) -> Vec<usize> {
    let counts = numbers(line(file, 1));
    let count = |place: usize| counts.get(place).copied().unwrap_or(0);
    let state = |text: &[u8]| number(field(text, if text.first() == Some(&b'D') { 4 } else { 3 }));
    let elements = lines(file).skip(1 + count(1)).take(count(2)).enumerate();
    elements.filter(|(_, text)| state(text) == Some(0)).map(|(place, _)| place + 1).collect()
}

#[cfg(test)]
mod tests {
    use super::*;

    #[test]
    fn a_name_is_no_formula() {
        for (name, wanted) in
            [("=1+1.txt", "./=1+1.txt"), ("-a", "./-a"), ("@x", "./@x"), ("+x", "./+x"), ("K.txt", "K.txt"), ("a=b", "a=b")]
        {
            assert_eq!(cell(OsStr::new(name)), wanted);
        }
    }

    #[test]
    fn open_elements_are_counted_in_file_order() {
        let file = b"S    5    1    2    0\nP    2    1          \nL    1    2    1     \nD    2    3    4    0\n";
        assert_eq!(open_elements(file), [2]);
    }
}
