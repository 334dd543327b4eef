//! The picture of a file: which states it has, what stands over it, and whose paths it shows.

use judge::{Refusal, State};

use crate::appeal::{Marked, setting_name};
use crate::args::{Drawing, Look, Shown};
use crate::ask::{self, Answer, Danger};
use crate::cause::capitalised;
use crate::layout::curve::Point;
use crate::model::Station;
use crate::picture::Picture;
use crate::picture::paths::Paths;
use crate::questions::{faults, setting_of};
use crate::what_if::{NO_SETTING, WhatIf};
use crate::{REFUSED, WRONG_USE, words};

/// A file's name without its folders.
fn short_name(name: &str) -> &str {
    name.rsplit('/').next().unwrap_or(name)
}

/// What a picture shows.
pub struct View {
    pub station: Station,
    pub paths: Option<Paths>,
    /// The elements that are marked: each keeps the station safe.
    pub keeping: Vec<usize>,
    /// Whether what a candidate drew is right.
    pub right: Option<bool>,
    pub title: String,
    /// What the picture says beside the station's counts.
    pub note: String,
}

impl View {
    fn new(station: Station, danger: Option<&Danger>, title: String, note: String) -> View {
        let paths = danger.map(|danger| Paths::of_danger(&station, danger));
        View { station, paths, keeping: vec![], right: None, title, note }
    }

    /// Draws it; `prefix` stands before names that must be unique in a page.
    pub fn draw(&self, name: &str, prefix: &str, alone: bool, positions: Option<&[Point]>) -> String {
        let picture = Picture {
            station: &self.station,
            paths: self.paths.as_ref(),
            walk: None,
            keeping: &self.keeping,
            title: format!("{}. {}", short_name(name), self.title),
            subtitle: format!("{}. {}", self.station.counts(), self.note),
            prefix: String::from(prefix),
            alone,
            positions,
        };
        picture.draw()
    }
}

/// Of a station whose open elements no setting closes.
const AS_OPEN: &str = "Open elements are shown as open.";

/// A picture of the answer to a file: with the states of the setting shown where elements are open. None where the file was refused by the reader.
pub fn picture(name: &str, answer: &Answer, prefix: &str, alone: bool) -> Option<String> {
    picture_at(name, answer, prefix, alone, None)
}

/// The same, with the positions of the sections where there are any.
pub fn picture_at(name: &str, answer: &Answer, prefix: &str, alone: bool, positions: Option<&[Point]>) -> Option<String> {
    Some(view(answer)?.draw(name, prefix, alone, positions))
}

/// What the picture of an answer shows.
pub fn view(answer: &Answer) -> Option<View> {
    let (_, title) = words::summary(answer);
    let (station, danger, note) = match answer {
        Answer::Refused(_) => return None,
        Answer::TooManyOpen(station, _) | Answer::Set(station, None) | Answer::Opening(station, _, None) => {
            (station.clone(), None, String::from(AS_OPEN))
        }
        Answer::Opening(station, _, Some(found)) => {
            (station.under(&found.setting), None, String::from("Turnouts as found, every open signal at stop."))
        }
        Answer::Judged(station, judged) => (station.clone(), judged.danger.as_ref(), judged.counts_words()),
        Answer::Set(station, Some(best)) => {
            (station.under(&best.setting), None, format!("The setting shown has proceed count {}.", best.proceed))
        }
    };
    Some(View::new(station, danger, title, note))
}

/// What went wrong, in words, and the status that the program ends with.
type Wrong = (u8, String);

/// What a picture shows that was asked for; none where the file was refused by the reader.
pub fn view_of(answer: &Answer, file: &[u8], look: &Look) -> Result<Option<View>, Wrong> {
    let Some(station) = answer.station() else { return Ok(None) };
    let states = states_of(station, file, &look.shown)?;
    let mut view = match (&states, &look.drawing) {
        (_, Some(drawing)) => {
            let (under, what) = match &states {
                Some((setting, what)) => (station.under(setting), format!(", {what}")),
                None => (station.clone(), String::new()),
            };
            view_of_drawing(&under, drawing, &what).map_err(|refusal| told(refusal, states.is_none()))?
        }
        (Some((setting, what)), None) => view_under(station, setting, what).map_err(|refusal| told(refusal, false))?,
        (None, None) if look.shown == Shown::Filed => View::new(station.clone(), None, String::from("As filed."), String::from(AS_OPEN)),
        (None, None) => return Ok(view(answer).map(|view| if look.what_if { with_keeping(view) } else { view })),
    };
    if look.what_if {
        view = with_keeping(view);
    }
    Ok(Some(view))
}

/// The station with the states that are looked at; none where the file was not read, or the setting is none of it.
pub fn station_of(answer: &Answer, look: &Look) -> Option<Station> {
    let station = answer.station()?;
    match &look.shown {
        Shown::Setting(states) => setting_of(station, states).ok().map(|setting| station.under(&setting)),
        _ => Some(ask::setting(answer).map_or(station.clone(), |setting| station.under(setting))),
    }
}

/// A refusal in words.
fn told(refusal: Refusal, no_setting: bool) -> Wrong {
    let more = if refusal.number() == 10 && no_setting { " --setting says under which states a drawing is marked." } else { "" };
    (REFUSED, format!("{refusal}.{more}"))
}

/// The setting that is asked for, and what it is called.
fn states_of(station: &Station, file: &[u8], shown: &Shown) -> Result<Option<(Vec<State>, String)>, Wrong> {
    Ok(match shown {
        Shown::Chosen | Shown::Filed => None,
        Shown::Setting(states) => {
            let setting = setting_of(station, states).map_err(|wrong| (WRONG_USE, format!("--{}: {wrong}", setting_name(states))))?;
            Some((setting, setting_name(states)))
        }
        Shown::Frame(number) => Some((ask::frame(file, *number).map_err(|refusal| told(refusal, false))?, format!("frame {number}"))),
    })
}

/// The station under a setting with its verdict.
pub fn view_under(station: &Station, setting: &[State], what: &str) -> Result<View, Refusal> {
    let judged = ask::verdict_under(station, setting)?;
    let verdict = judged.danger.as_ref().map_or(String::from("safe"), |danger| format!("dangerous, {}", danger.words()));
    let title = format!("{}: {verdict}.", capitalised(what));
    Ok(View::new(station.under(setting), judged.danger.as_ref(), title, judged.counts_words()))
}

/// The station as it is shown, with what a candidate drew.
pub fn view_of_drawing(station: &Station, drawing: &Drawing, what: &str) -> Result<View, Refusal> {
    const MOST: usize = 4;
    let marked = Marked::new(&station.file()?, station, drawing)?;
    let faults = faults(station, marked.trains, [&marked.paths[0], &marked.paths[1]]);
    let mut note = if marked.right {
        String::from("Both are paths, and they end in one section")
    } else {
        faults[..faults.len().min(MOST)].join("; ")
    };
    if faults.len() > MOST {
        note += &format!("; and {} more", faults.len() - MOST);
    }
    Ok(View {
        station: station.clone(),
        paths: Some(Paths::of_drawing(&marked)),
        keeping: vec![],
        right: Some(marked.right),
        title: format!("The drawing{what}: {}.", if marked.right { "right" } else { "not right" }),
        note: format!("{}.", capitalised(&note)),
    })
}

/// The same with the elements marked that keep the station safe; none where an element is shown as open.
pub fn with_keeping(view: View) -> View {
    match WhatIf::new(&view.station) {
        Ok(what_if) => View { note: format!("{} {}", view.note, what_if.summary()), keeping: what_if.keeping(), ..view },
        Err(_) => View { note: format!("{} {NO_SETTING}", view.note), ..view },
    }
}
