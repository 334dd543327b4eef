//! Route tables, standing answers and reports in columns with headings (02, Items 7, 8 and 9).

use std::iter;

use judge::{Mark, Refusal, Route, Situation, State};

use crate::cause;
use crate::columns::{lines, numbers};
use crate::doc::{Outcome, Part, Table, Words};
use crate::json::Json;
use crate::marks::{Record, of_marks, records};
use crate::model::{counted, named};
use crate::words::refused;

/// A route as its file has it.
struct RouteLines {
    signal: usize,
    sections: Vec<usize>,
    /// Element and state.
    turnouts: Vec<(usize, usize)>,
}

fn route_lines(file: &[u8]) -> Vec<RouteLines> {
    let mut routes: Vec<RouteLines> = Vec::new();
    for line in lines(file) {
        let fields = numbers(line);
        let field = |place: usize| fields.get(place).copied().unwrap_or(0);
        match (line.first(), routes.last_mut()) {
            (Some(b'R'), _) => routes.push(RouteLines { signal: field(1), sections: vec![], turnouts: vec![] }),
            (Some(b'K'), Some(route)) => route.sections.push(field(0)),
            (Some(b'W'), Some(route)) => route.turnouts.push((field(0), field(1))),
            _ => {}
        }
    }
    routes
}

/// What two routes have in common that makes a conflict, for display: the sections, and the turnouts wanted in different states.
fn shared(one: &RouteLines, two: &RouteLines) -> (Vec<usize>, Vec<usize>) {
    let mut sections: Vec<usize> = one.sections.iter().copied().filter(|section| two.sections.contains(section)).collect();
    sections.sort_unstable();
    sections.dedup();
    let differs = |&&(turnout, state): &&(usize, usize)| two.turnouts.iter().any(|&(other, wanted)| other == turnout && wanted != state);
    let mut turnouts: Vec<usize> = one.turnouts.iter().filter(differs).map(|&(turnout, _)| turnout).collect();
    turnouts.sort_unstable();
    turnouts.dedup();
    (sections, turnouts)
}

/// The conflicts of the routes of a route file.
pub fn routes(station: &[u8], routes: &[u8], why: bool) -> Result<Words, Words> {
    let situation = judge::read(station).map_err(|refusal| refused(refusal, &cause::of_station(refusal, station)))?;
    let mut table = [0; judge::TABLE_SIZE];
    let table = judge::routes(station, routes, &mut table).map_err(|refusal| refused_routes(refusal, routes, &situation))?;
    let listing = route_lines(routes);
    let count = usize::from(table.routes());
    let conflict = |one: usize, two: usize| table.conflict(number(one), number(two)) == Some(true);
    let pairs: Vec<(usize, usize)> =
        (1..=count).flat_map(|one| (one + 1..=count).map(move |two| (one, two))).filter(|&(one, two)| conflict(one, two)).collect();
    let summary = format!("{}, {} in conflict.", counted(count, "route"), counted(pairs.len(), "pair"));
    let mut words = Words { outcome: Outcome::Safe, summary, parts: vec![] };
    if count == 0 {
        return Ok(words);
    }
    words.heading("Routes");
    let mut of_routes = Table::new(&["route", "start signal", "sections", "turnouts"]);
    for (place, route) in listing.iter().enumerate() {
        let sections: Vec<String> = route.sections.iter().map(usize::to_string).collect();
        let state = |state: usize| if state == 1 { State::One } else { State::Two };
        let turnouts: Vec<String> =
            route.turnouts.iter().map(|&(turnout, wanted)| format!("{turnout} {}", state(wanted).of_turnout())).collect();
        of_routes.row(vec![(place + 1).to_string(), route.signal.to_string(), sections.join(" "), turnouts.join(", ")]);
    }
    words.table(of_routes);
    words.heading("Conflicts");
    words.list(matrix(&listing, count, &conflict));
    words.text("S: they share a section. T: they want a turnout in different states. B: both. A dot: no conflict.");
    if why {
        words.heading("Why");
        words.list(pairs.iter().map(|&(one, two)| reason(&listing, one, two)).collect());
    }
    Ok(words)
}

/// Why a file has no table, for a program that reads it.
#[derive(Clone, Debug, PartialEq, Eq)]
pub struct Unanswered {
    pub refusal: Option<Refusal>,
    pub why: String,
}

impl Unanswered {
    /// In words.
    pub fn words(&self) -> String {
        self.refusal.map_or_else(|| self.why.clone(), |refusal| refusal.to_string())
    }
}

impl From<Refusal> for Unanswered {
    fn from(refusal: Refusal) -> Unanswered {
        Unanswered { refusal: Some(refusal), why: String::from(refusal.meaning()) }
    }
}

/// Fields of an object of JSON.
pub type Fields = Vec<(&'static str, Json)>;

/// The routes and their conflicts, for a program that reads them.
pub fn routes_fields(station: &[u8], routes: &[u8]) -> Result<Fields, Unanswered> {
    let mut table = [0; judge::TABLE_SIZE];
    let table = judge::routes(station, routes, &mut table)?;
    let listing = route_lines(routes);
    let of_turnout = |&(turnout, state): &(usize, usize)| Json::Object(vec![("element", turnout.into()), ("state", state.into())]);
    let of_route = |(place, route): (usize, &RouteLines)| {
        Json::Object(vec![
            ("route", (place + 1).into()),
            ("start_signal", route.signal.into()),
            ("sections", Json::list(route.sections.iter().copied())),
            ("turnouts", Json::List(route.turnouts.iter().map(of_turnout).collect())),
        ])
    };
    let mut conflicts = Vec::new();
    for one in 1..=table.routes() {
        for two in table.conflicts(Route(one)).filter(|two| two.get() > one) {
            let of = |route: u16| listing.get(usize::from(route) - 1);
            let (sections, turnouts) = of(one).zip(of(two.get())).map_or((vec![], vec![]), |(one, two)| shared(one, two));
            let routes = ("routes", Json::list([one, two.get()]));
            conflicts.push(Json::Object(vec![routes, ("sections", Json::list(sections)), ("turnouts", Json::list(turnouts))]));
        }
    }
    Ok(vec![("routes", Json::List(listing.iter().enumerate().map(of_route).collect())), ("conflicts", Json::List(conflicts))])
}

fn number(route: usize) -> Route {
    Route(u16::try_from(route).unwrap_or(0))
}

fn refused_routes(refusal: Refusal, routes: &[u8], situation: &Situation) -> Words {
    refused(refusal, &cause::of_routes(refusal, routes, situation))
}

/// A letter for each two routes, with the numbers of the routes above and on the left; a gap after each ten.
fn matrix(listing: &[RouteLines], count: usize, conflict: &dyn Fn(usize, usize) -> bool) -> Vec<String> {
    let gap = |column: usize| if column > 1 && column % 10 == 1 { "  " } else { " " };
    let row = |head: &str, cell: &dyn Fn(usize) -> char| -> String {
        let mut text = format!("{head:>5} ");
        for column in 1..=count {
            text += gap(column);
            text.push(cell(column));
        }
        String::from(text.trim_end())
    };
    let digit = |number: usize| char::from_digit(u32::try_from(number % 10).unwrap_or(0), 10).unwrap_or(' ');
    let mut rows = Vec::new();
    if count > 9 {
        rows.push(row("", &|column| if column > 9 { digit(column / 10) } else { ' ' }));
    }
    rows.push(row("", &digit));
    for one in 1..=count {
        rows.push(row(&one.to_string(), &|two| {
            if one == two {
                '-'
            } else if !conflict(one, two) {
                '.'
            } else {
                match (listing.get(one - 1), listing.get(two - 1)) {
                    (Some(a), Some(b)) => match shared(a, b) {
                        (sections, turnouts) if turnouts.is_empty() && !sections.is_empty() => 'S',
                        (sections, turnouts) if sections.is_empty() && !turnouts.is_empty() => 'T',
                        (sections, turnouts) if !sections.is_empty() && !turnouts.is_empty() => 'B',
                        _ => 'X',
                    },
                    _ => 'X',
                }
            }
        }));
    }
    rows
}

fn reason(listing: &[RouteLines], one: usize, two: usize) -> String {
    let (Some(a), Some(b)) = (listing.get(one - 1), listing.get(two - 1)) else { return format!("{one} and {two}") };
    let (sections, turnouts) = shared(a, b);
    let mut reasons = Vec::new();
    if !sections.is_empty() {
        reasons.push(format!("they share {}", named("section", &sections)));
    }
    if !turnouts.is_empty() {
        reasons.push(format!("they want {} in different states", named("turnout", &turnouts)));
    }
    format!("{one} and {two}: {}", reasons.join(", and "))
}

/// The standing answers of a log, as its C lines.
pub fn answer_lines(log: &[u8]) -> Result<Vec<u8>, Refusal> {
    let mut buffer = vec![0; log.len()];
    Ok(judge::standing_answers(log, &mut buffer)?.to_vec())
}

/// The standing answers of a log, for a program that reads them.
pub fn answers_fields(log: &[u8]) -> Result<Fields, Unanswered> {
    let names = ["candidate", "question", "sequence", "answer"];
    let objects = lines(&answer_lines(log)?).map(|line| object(&names, line)).collect();
    Ok(vec![("answers", Json::List(objects))])
}

/// The numbers of a line under these names.
fn object(names: &[&'static str], line: &[u8]) -> Json {
    Json::Object(names.iter().copied().zip(numbers(line).into_iter().map(Json::from)).collect())
}

/// The standing answers of a log.
pub fn answers(log: &[u8]) -> Result<Words, Words> {
    let standing = answer_lines(log).map_err(|refusal| refused(refusal, &cause::of_log(refusal, log)))?;
    let count = standing.len() / judge::LINE_SIZE;
    let summary = format!("{} of {}.", counted(count, "standing answer"), counted(log.len() / judge::LINE_SIZE, "line"));
    let mut words = Words { outcome: Outcome::Safe, summary, parts: vec![] };
    if count > 0 {
        let mut table = Table::new(&["candidate", "question", "sequence", "answer", "safe settings claimed"]);
        for line in lines(&standing) {
            let fields = numbers(line);
            let claimed = fields.get(3).and_then(|answer| answer.checked_sub(1)).map_or(String::new(), |claimed| claimed.to_string());
            let mut row: Vec<String> = fields.iter().map(usize::to_string).collect();
            row.push(claimed);
            table.row(row);
        }
        words.table(table);
    }
    Ok(words)
}

/// The report of marks, as its M lines and its Z line.
fn report_lines_of(records: &[Record]) -> Result<Vec<u8>, Refusal> {
    let marks: Vec<Mark> = records.iter().map(|record| record.mark).collect();
    let mut buffer = [0; judge::REPORT_SIZE];
    Ok(judge::report(&marks, &mut buffer)?.to_vec())
}

/// The report of a list of marks, as its M lines and its Z line.
pub fn report_lines(text: &[u8]) -> Result<Vec<u8>, Unanswered> {
    let no_list = |words: Words| {
        let notes = words.parts.iter().filter_map(|part| if let Part::Text(text) = part { Some(text.as_str()) } else { None });
        Unanswered { refusal: None, why: iter::once(words.summary.as_str()).chain(notes).collect::<Vec<_>>().join(" ") }
    };
    Ok(report_lines_of(&records(text).map_err(no_list)?)?)
}

/// The report of a list of marks, for a program that reads it.
pub fn report_fields(text: &[u8]) -> Result<Fields, Unanswered> {
    let report = report_lines(text)?;
    let (candidates, session): (Vec<&[u8]>, Vec<&[u8]>) = lines(&report).partition(|line| line.first() == Some(&b'M'));
    let candidates = candidates.into_iter().map(|line| object(&["candidate", "gained", "possible"], line)).collect();
    let session = session.first().map(|line| object(&["gained", "possible"], line));
    Ok(vec![("candidates", Json::List(candidates)), ("session", session.into())])
}

/// The report of a list of marks.
pub fn report(text: &[u8]) -> Result<Words, Words> {
    let records = records(text)?;
    let report = report_lines_of(&records).map_err(|refusal| refused(refusal, &of_marks(refusal, &records)))?;
    let mut table = Table::new(&["candidate", "gained", "possible"]);
    for line in lines(&report) {
        let fields: Vec<String> = numbers(line).iter().map(usize::to_string).collect();
        let mut row = if line.first() == Some(&b'Z') { vec![String::from("all")] } else { vec![] };
        row.extend(fields);
        table.row(row);
    }
    let candidates = table.rows.len().saturating_sub(1);
    let summary = format!("{} of {}.", counted(records.len(), "mark"), counted(candidates, "candidate"));
    let mut words = Words { outcome: Outcome::Safe, summary, parts: vec![] };
    words.table(table);
    Ok(words)
}

#[cfg(test)]
mod tests {
    use super::*;

    #[test]
    fn conflicts_have_their_reasons() {
        let file = b"R    1    1    2    1\nK    1               \nK    2               \nW    2    1          \nR    2    1    2    1\nK    3               \nK    2               \nW    2    2          \n";
        let listing = route_lines(file);
        assert_eq!(listing.len(), 2);
        assert_eq!(reason(&listing, 1, 2), "1 and 2: they share section 2, and they want turnout 2 in different states");
        assert_eq!(matrix(&listing, 2, &|_, _| true), ["       1 2", "    1  - B", "    2  B -"]);
    }
}
