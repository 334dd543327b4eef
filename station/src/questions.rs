//! Further questions about a file: a drawing (02, Item 1), the yes or no (Item 6), frames (Item 11), a setting, an old desk (Item 5).

use judge::{Section, State, Train};

use crate::appeal::setting_name;
use crate::args::{Drawing, Frames, Questions};
use crate::ask;
use crate::cause;
use crate::doc::{Part, Table};
use crate::model::{Station, counted, counted_are, grouped, named, sort, word};
use crate::opening;
use crate::what_if;
use crate::words::{of_setting, refusal_parts};

/// The answers to further questions, in words.
#[derive(Clone, Debug, Default)]
pub struct Replies {
    pub parts: Vec<Part>,
    /// One of them was refused.
    pub refused: bool,
    /// A drawing is not right.
    pub not_right: bool,
    /// What was asked for that the file does not have.
    pub wrong: Option<String>,
}

impl Replies {
    fn heading(&mut self, text: impl Into<String>) {
        self.parts.push(Part::Heading(text.into()));
    }

    fn text(&mut self, text: impl Into<String>) {
        self.parts.push(Part::Text(text.into()));
    }

    fn refused(&mut self, refusal: judge::Refusal, shown: &cause::Shown) {
        self.refused = true;
        self.parts.extend(refusal_parts(refusal, shown));
    }
}

/// Answers the questions about a file that the library has read.
pub fn replies(file: &[u8], station: &Station, questions: &Questions) -> Replies {
    let mut replies = Replies::default();
    let under = questions.setting.as_ref().map(|states| set(&mut replies, station, states));
    if let Some(drawing) = &questions.drawing {
        match &under {
            None => drawn(&mut replies, "", file, station, drawing),
            Some(Some(under)) => {
                let marked = marked(questions.setting.as_deref(), file, under, drawing);
                replies.parts.extend(marked.parts);
                replies.refused |= marked.refused;
                replies.not_right |= marked.not_right;
            }
            Some(None) => {}
        }
    }
    if questions.can_be_safe {
        saved(&mut replies, file, station);
    }
    if let Some(frames) = questions.frames {
        walk(&mut replies, file, station, frames);
    }
    if questions.old_desks {
        converted(&mut replies, file, station);
    }
    if questions.what_if {
        let chosen = || ask::setting(&ask::answer(file)).map_or(station.clone(), |setting| station.under(setting));
        replies.parts.extend(under.unwrap_or_else(|| Some(chosen())).iter().flat_map(what_if::parts));
    }
    replies
}

/// Marks a drawing on the file with the states of a station that is shown: those of a setting, where one is given.
pub fn marked(states: Option<&[State]>, file: &[u8], station: &Station, drawing: &Drawing) -> Replies {
    let mut replies = Replies::default();
    match station.file() {
        Ok(file) => {
            let under = states.map_or(String::new(), |states| format!(", under {}", setting_name(states)));
            drawn(&mut replies, &under, &file, station, drawing);
        }
        Err(refusal) => replies.refused(refusal, &cause::of_station(refusal, file)),
    }
    replies
}

fn drawn(replies: &mut Replies, under: &str, file: &[u8], station: &Station, drawing: &Drawing) {
    replies.heading(format!("The drawing{under}"));
    let [first, second] = drawing.paths.clone().map(|path| path.into_iter().map(Section).collect::<Vec<_>>());
    match judge::drawing(file, Train(drawing.trains[0]), Train(drawing.trains[1]), &first, &second) {
        Ok(true) => {
            replies.text("Yes, it is right: both lists are paths of their trains, and they end in one section.");
            for (train, path) in drawing.trains.iter().zip([&first, &second]) {
                let mut lines = vec![format!("train {train} starts in section {}", path.first().copied().unwrap_or_default())];
                lines.extend(path.windows(2).map(|step| station.step(step[0], step[1])));
                replies.parts.push(Part::List(lines));
            }
        }
        Ok(false) => {
            replies.not_right = true;
            replies.text("No, it is not right.");
            replies.parts.push(Part::List(faults(station, drawing.trains, [&first, &second])));
        }
        Err(refusal) => {
            let shown = match refusal.number() {
                12 => cause::of_drawing(drawing.trains, station.filed.trains.len()),
                _ => cause::of_station(refusal, file),
            };
            replies.refused(refusal, &shown);
            if refusal.number() == 10 {
                replies.text("--setting says under which states it is marked.");
            }
        }
    }
}

/// What is wrong with a drawing, in words: each thing that the library's "no" can rest on.
pub fn faults(station: &Station, trains: [u16; 2], paths: [&[Section]; 2]) -> Vec<String> {
    let mut faults = Vec::new();
    if trains[0] == trains[1] {
        faults.push(format!("both lists are of train {}, and the trains have to differ", trains[0]));
    }
    for (train, path) in trains.iter().zip(paths) {
        let standing = station.filed.trains.get(usize::from(*train).wrapping_sub(1)).map_or(&[][..], Vec::as_slice);
        let Some(start) = path.first() else {
            faults.push(format!("the list of train {train} is empty, and a path has at least one section"));
            continue;
        };
        if !standing.contains(start) {
            faults.push(format!(
                "the path of train {train} starts in section {start}, and the train stands in {}",
                named("section", standing)
            ));
        }
        let is_outside = |section: &Section| !station.has(*section);
        let mut outside: Vec<Section> = path.iter().copied().filter(is_outside).collect();
        outside.sort_unstable();
        outside.dedup();
        if !outside.is_empty() {
            let are = if outside.len() == 1 { "is" } else { "are" };
            let has = cause::station_sections(station.sections());
            faults.push(format!("train {train}: {} {are} not in the station, which has {has}", named("section", &outside)));
        }
        for step in path.windows(2).filter(|step| !step.iter().any(is_outside)) {
            if !station.permits(step[0], step[1]) {
                faults.push(format!("train {train}, not permitted: {}", station.step(step[0], step[1])));
            }
        }
    }
    if let [Some(one), Some(two)] = paths.map(<[Section]>::last)
        && one != two
    {
        faults.push(format!("the lists end in different sections, {one} and {two}"));
    }
    faults
}

fn saved(replies: &mut Replies, file: &[u8], station: &Station) {
    replies.heading("Can it be safe at all?");
    match judge::can_be_safe(file) {
        Ok(true) if station.open().is_empty() => replies.text("Yes: no element is open, and the file's own states are safe."),
        Ok(false) if station.open().is_empty() => replies.text("No: no element is open, and the file's own states are dangerous."),
        Ok(true) => {
            replies.text("Yes: some setting of the open elements is safe.");
            // Where the answer to the file is this one, it has the setting already.
            if station.open().len() <= judge::MAX_OPEN
                && let Ok(Some(found)) = opening::answer(file, station)
            {
                replies.parts.extend(opening::found_parts(station, &found));
            }
        }
        Ok(false) => replies.text("No: no setting of the open elements is safe."),
        Err(refusal) => replies.refused(refusal, &cause::of_station(refusal, file)),
    }
}

/// Judges a setting; gives the station with its states.
fn set(replies: &mut Replies, station: &Station, states: &[State]) -> Option<Station> {
    let open = station.open();
    let digits: String = states.iter().map(State::to_string).collect();
    match setting_of(station, states) {
        Ok(setting) => {
            replies.heading(format!("The setting {digits}"));
            let under = station.under(&setting);
            let words: Vec<String> = open.iter().map(|&number| under.element_words(number)).collect();
            replies.parts.push(Part::List(words));
            replies.parts.extend(of_setting(station, &setting));
            Some(under)
        }
        Err(wrong) => {
            replies.wrong = Some(format!("--setting {digits}: {wrong}"));
            None
        }
    }
}

/// A setting from states for the open elements alone.
pub fn setting_of(station: &Station, states: &[State]) -> Result<Vec<State>, String> {
    let open = station.open();
    if open.len() != states.len() {
        return Err(format!("{} given, and the file has {}", counted_are(states.len(), "state"), counted(open.len(), "open element")));
    }
    let mut setting: Vec<State> = station.filed.elements.iter().map(judge::ElementLine::state).collect();
    for (&number, &state) in open.iter().zip(states) {
        setting[number - 1] = state;
    }
    Ok(setting)
}

fn walk(replies: &mut Replies, file: &[u8], station: &Station, frames: Frames) {
    let open = station.open();
    let round = 1_u64 << open.len().min(judge::MAX_OPEN);
    let (first, last) = match frames {
        Frames::All => (0, round - 1),
        Frames::Span(first, last) => (first, last),
    };
    replies.heading(if first == last { format!("Frame {first}") } else { format!("Frames {first} to {last}") });
    // In words where a line of a terminal has room for them, otherwise by number and digit.
    const MOST_IN_WORDS: usize = 4;
    let in_words = open.len() <= MOST_IN_WORDS;
    let mut headings = vec![String::from("frame")];
    headings.extend(open.iter().map(|&number| match in_words {
        true => format!("{} {number}", sort(&station.filed.elements[number - 1])),
        false => number.to_string(),
    }));
    headings.push(String::from("verdict"));
    let mut table = Table { headings, rows: vec![] };
    let mut safe = 0;
    for frame in first..=last {
        let setting = match ask::frame(file, frame) {
            Ok(setting) => setting,
            Err(refusal) => return replies.refused(refusal, &cause::of_station(refusal, file)),
        };
        let before = frame.checked_sub(1).filter(|_| frame > first).and_then(|before| ask::frame(file, before).ok());
        let mut row = vec![frame.to_string()];
        for &number in &open {
            let changed = before.as_ref().is_some_and(|before| before.get(number - 1) != setting.get(number - 1));
            let state = setting.get(number - 1).copied().unwrap_or_default();
            row.push(match (in_words, changed) {
                (true, false) => String::from(word(&station.filed.elements[number - 1], state)),
                (true, true) => format!("{} *", word(&station.filed.elements[number - 1], state)),
                (false, false) => state.to_string(),
                (false, true) => format!("{state}*"),
            });
        }
        row.push(match ask::verdict_under(station, &setting) {
            Ok(judged) => {
                safe += usize::from(judged.danger.is_none());
                let words = judged.short_words();
                if in_words { words } else { String::from(words.trim_start_matches("dangerous, ")) }
            }
            Err(refusal) => refusal.to_string(),
        });
        table.row(row);
    }
    replies.parts.push(Part::Table(table));
    let shown = usize::try_from(last - first + 1).unwrap_or(usize::MAX);
    let changes = if first < last { " * marks the one element that changed." } else { "" };
    replies.text(format!("{} of {} safe.{changes}", grouped(safe), counted_are(shown, "frame")));
    if !in_words {
        let (turnouts, signals): (Vec<usize>, Vec<usize>) =
            open.iter().partition(|&&number| station.filed.elements[number - 1].is_turnout());
        let sorts = [("signal", signals, "1 proceed, 2 stop"), ("turnout", turnouts, "1 straight, 2 diverted")];
        let words = sorts
            .iter()
            .filter(|(_, numbers, _)| !numbers.is_empty())
            .map(|(sort, numbers, states)| format!("{}: {states}.", named(sort, numbers)));
        replies.text(words.collect::<Vec<_>>().join(" "));
    }
    if last >= round {
        replies
            .text(format!("The walk has {} frames; past the last it starts over.", grouped(usize::try_from(round).unwrap_or(usize::MAX))));
    }
}

fn converted(replies: &mut Replies, file: &[u8], station: &Station) {
    replies.heading("For a desk that reads only S files");
    let mut buffer = vec![0; file.len()];
    match judge::to_s(file, &mut buffer) {
        Ok(_) if station.filed.letter == judge::Letter::S => replies.text("It is an S file already."),
        Ok(_) => replies.text("It can be converted: with S in place of its first letter it is an S file with the same answers."),
        Err(refusal) => replies.refused(refusal, &cause::of_station(refusal, file)),
    }
}
