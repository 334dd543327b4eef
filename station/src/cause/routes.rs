//! Refusals of a route file.

use judge::{Refusal, Situation};

use super::{Shown, capitalised, old_form, station_sections};
use crate::columns::{line, lines, numbers, shown};
use crate::doc::Quote;
use crate::model::counted;

/// Shows the cause of refusal 14 or 15 of a route file, against the station that it is for.
pub fn of_routes(refusal: Refusal, file: &[u8], station: &Situation) -> Shown {
    let shown = of_line(refusal, file, station);
    if refusal.number() == 14 { shown.stored(file) } else { shown }
}

fn of_line(refusal: Refusal, file: &[u8], station: &Situation) -> Shown {
    let line_number = usize::from(refusal.line());
    let text = line(file, line_number);
    let due = due_line(file, line_number);
    if refusal.number() == 15 {
        let before = numbers(line(file, line_number - 1)).first().copied().unwrap_or(0);
        let here = numbers(text).first().copied().unwrap_or(0);
        let note = format!("No line of the station stands over {before} to {here} (section {before} is in line {}).", line_number - 1);
        return Shown::field(file, line_number, 1, note);
    }
    if text.is_empty() {
        return Shown::note(format!("Line {line_number} is missing: {} is due there.", due.words));
    }
    if text.len() < judge::LINE_SIZE {
        let mark = text.len()..judge::LINE_SIZE;
        let note = format!("The line is cut: it has {} of 22.", counted(text.len(), "byte"));
        return Shown { quotes: vec![Quote { line: line_number, text: shown(text), marks: vec![mark] }], notes: vec![note] };
    }
    if text[0] != due.letter {
        return Shown::letter(file, line_number, format!("{} is due here.", capitalised(&due.words)));
    }
    old_form(file, line_number, text, due.letter).or_else(|| route_range(file, line_number, text, &due, station)).unwrap_or_default()
}

/// What a line of a route file has to be by the lines before it.
struct Due {
    letter: u8,
    words: String,
    /// The number of the route that begins here, or is going on.
    route: usize,
}

fn due_line(file: &[u8], line_number: usize) -> Due {
    let (mut route, mut sections, mut turnouts) = (0, 0, 0);
    for text in lines(file).take(line_number.saturating_sub(1)) {
        if sections > 0 {
            sections -= 1;
        } else if turnouts > 0 {
            turnouts -= 1;
        } else {
            route += 1;
            let counts = numbers(text);
            sections = counts.get(2).copied().unwrap_or(0);
            turnouts = counts.get(3).copied().unwrap_or(0);
        }
    }
    if sections > 0 {
        Due { letter: b'K', words: format!("a K line (a section of route {route})"), route }
    } else if turnouts > 0 {
        Due { letter: b'W', words: format!("a W line (a turnout of route {route})"), route }
    } else {
        Due { letter: b'R', words: format!("an R line (the start of route {})", route + 1), route: route + 1 }
    }
}

/// The first field of a line of a route file that is outside its range.
fn route_range(file: &[u8], line_number: usize, text: &[u8], due: &Due, station: &Situation) -> Option<Shown> {
    let fields = numbers(text);
    let number = |place: usize| fields.get(place - 1).copied().unwrap_or(0);
    let element = |number: usize| number.checked_sub(1).and_then(|place| station.elements.get(place));
    let elements = station.elements.len();
    let (place, note) = match due.letter {
        b'R' if due.route > judge::MAX_ROUTES => (1, format!("A route file has at most {} routes.", judge::MAX_ROUTES)),
        b'R' if number(1) != due.route => (1, format!("Routes are numbered in file order: this is route {}.", due.route)),
        b'R' => match element(number(2)) {
            None => (2, format!("The station has {}, and none is number {}.", counted(elements, "element"), number(2))),
            Some(found) if found.is_turnout() => (2, format!("Element {} of the station is a turnout, and no signal.", number(2))),
            Some(_) if !(2..=32).contains(&number(3)) => (3, String::from("A route has 2 to 32 sections.")),
            Some(_) => (4, String::from("A route has 0 to 16 turnouts.")),
        },
        b'K' => (1, format!("The station has {}.", station_sections(usize::from(station.sections)))),
        _ => match element(number(1)) {
            None => (1, format!("The station has {}, and none is number {}.", counted(elements, "element"), number(1))),
            Some(found) if !found.is_turnout() => (1, format!("Element {} of the station is a signal, and no turnout.", number(1))),
            Some(_) => (2, String::from("A turnout is wanted in state 1 (straight) or 2 (diverted).")),
        },
    };
    Some(Shown::field(file, line_number, place, note))
}
