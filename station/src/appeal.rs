//! An appeal: a candidate's setting and drawing beside the judge's. The drawing is marked by the library (02, Item 1), for the file with the setting's states.

use judge::{Refusal, Section, State, Train};

use crate::args::{Drawing, Look, Shown};
use crate::ask::{self, Answer, Danger, Judged};
use crate::doc::{Part, Table};
use crate::model::{Station, place, sort, word};
use crate::questions::{self, setting_of};
use crate::shown::{self, View};
use crate::words::of_setting;
use crate::{DONE, NOT_RIGHT, REFUSED};

/// A drawing that the library marked.
#[derive(Clone, Debug)]
pub struct Marked {
    /// With the states that it is marked under.
    pub station: Station,
    pub trains: [u16; 2],
    pub paths: [Vec<Section>; 2],
    pub right: bool,
}

impl Marked {
    /// Asks the library to mark a drawing of a file, whose station it is.
    pub fn new(file: &[u8], station: &Station, drawing: &Drawing) -> Result<Marked, Refusal> {
        let paths = drawing.paths.clone().map(|path| path.into_iter().map(Section).collect::<Vec<_>>());
        let [one, two] = drawing.trains.map(Train);
        let right = judge::drawing(file, one, two, &paths[0], &paths[1])?;
        Ok(Marked { station: station.clone(), trains: drawing.trains, paths, right })
    }

    /// Marks the judge's own two paths.
    pub fn of_danger(station: &Station, danger: &Danger) -> Result<Marked, Refusal> {
        let trains = danger.trains.map(|train| u16::try_from(train).unwrap_or(0));
        let paths = [&danger.paths[0], &danger.paths[1]].map(|path| path.iter().map(|section| section.get()).collect());
        Marked::new(&station.file()?, station, &Drawing { trains, paths })
    }

    /// What is not permitted in one of the two paths, by the place of the section that it leads to: 0 is the start.
    pub fn wrong(&self, which: usize) -> Vec<(usize, String)> {
        let station = &self.station;
        let (train, path) = (self.trains[which], &self.paths[which]);
        let standing = station.filed.trains.get(usize::from(train).wrapping_sub(1)).map_or(&[][..], Vec::as_slice);
        let mut wrong = Vec::new();
        if let Some(start) = path.first()
            && !standing.contains(start)
        {
            wrong.push((0, format!("train {train} does not stand in section {start}")));
        }
        for (place, step) in path.windows(2).enumerate() {
            if let Some(outside) = step.iter().find(|section| !station.has(**section)) {
                wrong.push((place + 1, format!("section {outside} is not in the station")));
            } else if !station.permits(step[0], step[1]) {
                wrong.push((place + 1, format!("not permitted: {}", station.step(step[0], step[1]))));
            }
        }
        wrong
    }
}

/// "setting 1111"
pub fn setting_name(states: &[State]) -> String {
    format!("setting {}", digits(states))
}

fn digits(states: &[State]) -> String {
    states.iter().map(State::to_string).collect()
}

/// An appeal against the answer to a file, in words and in pictures.
pub struct Appeal {
    pub parts: Vec<Part>,
    /// The candidate's and the judge's, one beside the other, with what is written above them.
    pub views: Vec<(String, View)>,
    /// The status that the program ends with: something was refused, or the drawing is not right.
    pub status: u8,
}

/// The candidate's setting and drawing beside the judge's; none where nothing is appealed against, or the file was not read; or what was
/// asked for that the file does not have.
pub fn appeal(answer: &Answer, file: &[u8], look: &Look) -> Result<Option<Appeal>, String> {
    let Some(station) = answer.station() else { return Ok(None) };
    let states = if let Shown::Setting(states) = &look.shown { Some(states) } else { None };
    if states.is_none() && look.drawing.is_none() {
        return Ok(None);
    }
    let mut appeal = Appeal { parts: vec![], views: vec![], status: DONE };
    let under = match states {
        Some(states) => {
            let setting = setting_of(station, states).map_err(|wrong| format!("--{}: {wrong}", setting_name(states)))?;
            station.under(&setting)
        }
        None => station.clone(),
    };
    let name = states.map(|states| setting_name(states));
    let same = if name.is_some() { " under the same setting" } else { "" };
    let judged = under.file().and_then(|file| ask::verdict(&file)).ok();
    if let (Some(states), Some(judged)) = (states, &judged) {
        appeal.parts.extend(setting_parts(answer, &under, states, judged));
    }
    if let Some(drawing) = &look.drawing {
        let replies = questions::marked(states.map(Vec::as_slice), file, &under, drawing);
        appeal.status = match (replies.refused, replies.not_right) {
            (true, _) => REFUSED,
            (_, true) => NOT_RIGHT,
            _ => DONE,
        };
        appeal.parts.extend(replies.parts);
        let what = name.as_ref().map_or(String::new(), |name| format!(", {name}"));
        if let Ok(view) = shown::view_of_drawing(&under, drawing, &what) {
            appeal.views.push((format!("The candidate's. {} {}", view.title, view.note), view));
        }
    }
    if let Some(judged) = &judged {
        let whose = if look.drawing.is_some() { format!("The judge's{same}") } else { String::from("The candidate's setting") };
        if let Ok(view) = shown::view_under(station, &under.states, &whose) {
            appeal.views.push((view.title.clone(), view));
        }
        appeal.parts.push(Part::Heading(format!("The judge's verdict{same}")));
        appeal.parts.extend(of_setting(station, &under.states));
        if let Some(danger) = &judged.danger
            && let Ok(marked) = Marked::of_danger(&under, danger)
        {
            let right = if marked.right { "right" } else { "not right" };
            appeal.parts.push(Part::Text(format!("As a drawing, the judge's own two paths are marked {right} too.")));
        }
    }
    if let Some(setting) = ask::setting(answer).filter(|setting| **setting != under.states)
        && let Some(view) = shown::view(answer)
    {
        let judges: Vec<State> = station.open().iter().filter_map(|number| setting.get(number - 1).copied()).collect();
        appeal.views.push((format!("The judge's {}. {} {}", setting_name(&judges), view.title, view.note), view));
    }
    Ok(Some(appeal))
}

/// The candidate's setting beside the judge's, element by element, and what it is worth.
fn setting_parts(answer: &Answer, under: &Station, states: &[State], judged: &Judged) -> Vec<Part> {
    let setting = ask::setting(answer);
    let mut headings = vec!["element", "sort", "over", "the candidate's"];
    if setting.is_some() {
        headings.extend(["the judge's", ""]);
    }
    let mut table = Table::new(&headings);
    for (number, element, state) in under.elements().filter(|(number, ..)| under.is_open(*number)) {
        let mut row = vec![number.to_string(), String::from(sort(element)), place(element), String::from(word(element, state))];
        if let Some(&judges) = setting.and_then(|setting| setting.get(number - 1)) {
            row.extend([String::from(word(element, judges)), String::from(if judges == state { "" } else { "differs" })]);
        }
        table.row(row);
    }
    let proceed =
        under.elements().filter(|&(number, element, state)| under.is_open(number) && !element.is_turnout() && state == State::One).count();
    let worth = match &judged.danger {
        Some(danger) => format!("It is dangerous: {}.", danger.words()),
        None => format!("It is safe, with proceed count {proceed}."),
    };
    vec![
        Part::Heading(format!("The candidate's setting {}", digits(states))),
        Part::Table(table),
        Part::Text(worth),
        Part::Text(beside_the_judges(answer, under, judged, proceed)),
    ]
}

/// How the judge's setting differs.
fn beside_the_judges(answer: &Answer, under: &Station, judged: &Judged, proceed: usize) -> String {
    match answer {
        _ if ask::setting(answer).is_some_and(|setting| *setting == under.states) => String::from("It is the judge's setting."),
        Answer::Set(_, Some(best)) if judged.danger.is_some() => {
            format!("The judge's setting is safe, with proceed count {}.", best.proceed)
        }
        Answer::Set(_, Some(best)) if best.proceed == proceed => {
            String::from("The judge's setting has the same proceed count, and comes first in the order of the settings.")
        }
        Answer::Set(_, Some(best)) => format!("The judge's setting is safe with proceed count {}.", best.proceed),
        Answer::Set(_, None) | Answer::Opening(_, _, None) => String::from("No setting is safe."),
        Answer::Opening(_, _, Some(_)) => {
            String::from("The judge's is a safe one with every open signal at stop; the opening question asks only whether there is one.")
        }
        _ => String::new(),
    }
}
