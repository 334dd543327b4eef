//! Route tables (02, item 7): the request in plain Rust, route files right and wrong, and the comparison of an operation with it.
//!
//! The oracle is written from the request's sentences alone; it keeps each route as lists and compares every pair of lines.

use std::collections::BTreeSet;

use judge::ffi::{Filled, Refusal};

use crate::generate::stations::{self, Draft};
use crate::law::{self, Element, LINE, Situation, line_text, number, refusal};
use crate::random::Random;

/// A route: its sections, and its W lines (element, state).
#[derive(Clone, Debug, PartialEq, Eq)]
pub struct Route {
    pub sections: Vec<u32>,
    pub wants: Vec<(u32, u32)>,
}

const MOST_ROUTES: usize = 64;

// ---- the request

/// The ordered pairs that the lines of a station stand over, whatever the states.
fn stood_over(station: &Situation) -> BTreeSet<(u32, u32)> {
    let mut pairs: BTreeSet<(u32, u32)> = station.plain.iter().copied().collect();
    for element in &station.elements {
        match *element {
            Element::Signal { from, to, .. } => {
                pairs.insert((from, to));
            }
            Element::Turnout { stem, straight, diverted, .. } => {
                pairs.extend([(stem, straight), (straight, stem), (stem, diverted), (diverted, stem)]);
            }
        }
    }
    pairs
}

fn is_signal(station: &Situation, element: u32) -> bool {
    element >= 1 && matches!(station.elements.get(element as usize - 1), Some(Element::Signal { .. }))
}

fn is_turnout(station: &Situation, element: u32) -> bool {
    element >= 1 && matches!(station.elements.get(element as usize - 1), Some(Element::Turnout { .. }))
}

/// The lines of a route file, taken one by one.
struct Lines<'a> {
    file: &'a [u8],
    taken: usize,
}

impl Lines<'_> {
    fn refused(&self, number: u16) -> Refusal {
        refusal(number, self.taken)
    }

    /// The numbers of the next line, which has to have this letter and so many filled fields.
    fn next(&mut self, letter: u8, filled: usize) -> Result<Vec<u32>, Refusal> {
        let start = LINE * self.taken;
        self.taken += 1;
        let line = self.file.get(start..start + LINE).ok_or(self.refused(14))?;
        if line[0] != letter || line[LINE - 1] != b'\n' {
            return Err(self.refused(14));
        }
        let mut numbers = vec![];
        for (place, field) in line[1..LINE - 1].chunks(5).enumerate() {
            if place < filled {
                numbers.push(number(field).ok_or(self.refused(14))?);
            } else if field != b"     " {
                return Err(self.refused(14));
            }
        }
        Ok(numbers)
    }

    fn at_end(&self) -> bool {
        LINE * self.taken >= self.file.len()
    }
}

/// The routes of a route file, or the first line that is refused.
pub fn read(station: &Situation, file: &[u8]) -> Result<Vec<Route>, Refusal> {
    let over = stood_over(station);
    let mut lines = Lines { file, taken: 0 };
    let mut routes: Vec<Route> = vec![];
    while !lines.at_end() {
        let r = lines.next(b'R', 4)?;
        let in_limits = routes.len() < MOST_ROUTES && r[0] as usize == routes.len() + 1 && (2..=32).contains(&r[2]) && r[3] <= 16;
        if !in_limits || !is_signal(station, r[1]) {
            return Err(lines.refused(14));
        }
        let mut route = Route { sections: vec![], wants: vec![] };
        for _ in 0..r[2] {
            let section = lines.next(b'K', 1)?[0];
            if section < 1 || section > station.header.sections {
                return Err(lines.refused(14));
            }
            if route.sections.last().is_some_and(|&last| !over.contains(&(last, section))) {
                return Err(lines.refused(15));
            }
            route.sections.push(section);
        }
        for _ in 0..r[3] {
            let w = lines.next(b'W', 2)?;
            if !is_turnout(station, w[0]) || !(1..=2).contains(&w[1]) {
                return Err(lines.refused(14));
            }
            route.wants.push((w[0], w[1]));
        }
        routes.push(route);
    }
    Ok(routes)
}

/// "They share a section or some W line of one and some W line of the other want one turnout in different states."
pub fn conflict(one: &Route, other: &Route) -> bool {
    let disagree = |&(turnout, state): &(u32, u32)| other.wants.iter().any(|&(also, wanted)| also == turnout && wanted != state);
    one.sections.iter().any(|section| other.sections.contains(section)) || one.wants.iter().any(disagree)
}

/// The bytes of the table for a lent table of this length, or the refusal.
pub fn table(station: &[u8], file: &[u8], room: usize) -> Result<Vec<u8>, Refusal> {
    let routes = read(&law::read(station)?, file)?;
    let n = routes.len();
    if room < n * n {
        return Err(refusal(9, 0));
    }
    let mut table = vec![0; n * n];
    for a in 1..=n {
        for b in 1..=n {
            table[(a - 1) * n + b - 1] = u8::from(a != b && conflict(&routes[a - 1], &routes[b - 1]));
        }
    }
    Ok(table)
}

// ---- files

fn text(routes: &[(u32, Route)]) -> Vec<Vec<u8>> {
    let mut lines = vec![];
    for (place, (signal, route)) in routes.iter().enumerate() {
        lines.push(line_text('R', &[place as u32 + 1, *signal, route.sections.len() as u32, route.wants.len() as u32]));
        lines.extend(route.sections.iter().map(|&section| line_text('K', &[section])));
        lines.extend(route.wants.iter().map(|&(element, state)| line_text('W', &[element, state])));
    }
    lines
}

/// A station with signals, turnouts and steps to walk along.
fn station(random: &mut Random) -> Situation {
    if random.once_in(3) {
        return stations::station(random).1;
    }
    let sections = random.pick(&[3, 5, 8, 20, 60, 512]);
    let mut draft = Draft::new(sections);
    let section = |random: &mut Random| random.between(1, sections);
    for _ in 0..random.between(1, 2 * sections.min(40)) {
        let (a, b, c, state) = (section(random), section(random), section(random), random.between(0, 2));
        match random.between(1, 4) {
            1 => draft.plain(a, b),
            2 => draft.signal(a, b, state),
            _ => draft.turnout(a, b, c, state),
        }
    }
    draft.situation()
}

/// Routes along the steps of a station; none where it has no signal or no step.
fn routes(random: &mut Random, station: &Situation) -> Vec<(u32, Route)> {
    let elements = 1..=station.elements.len() as u32;
    let signals: Vec<u32> = elements.clone().filter(|&element| is_signal(station, element)).collect();
    let turnouts: Vec<u32> = elements.filter(|&element| is_turnout(station, element)).collect();
    let over: Vec<(u32, u32)> = stood_over(station).into_iter().collect();
    if signals.is_empty() || over.is_empty() {
        return vec![];
    }
    let most = random.pick(&[1, 2, 4, 8, 64]);
    let count = if random.once_in(12) { 64 } else { random.between(0, most) };
    let longest = random.pick(&[2, 4, 32]);
    let mut routes = vec![];
    for _ in 0..count {
        let first = random.pick(&over);
        let mut sections = vec![first.0, first.1];
        let wanted = random.between(2, longest) as usize;
        while sections.len() < wanted {
            let steps: Vec<u32> = over.iter().filter(|step| step.0 == sections[sections.len() - 1]).map(|step| step.1).collect();
            if steps.is_empty() {
                break;
            }
            sections.push(random.pick(&steps));
        }
        let many = random.pick(&[0, 1, 3, 16]);
        let wants = if turnouts.is_empty() { 0 } else { random.between(0, many) };
        let wants = (0..wants).map(|_| (random.pick(&turnouts), random.between(1, 2))).collect();
        routes.push((random.pick(&signals), Route { sections, wants }));
    }
    routes
}

/// The places of the lines with a letter.
fn with(lines: &[Vec<u8>], letter: u8) -> Vec<usize> {
    (0..lines.len()).filter(|&place| lines[place][0] == letter).collect()
}

fn put(line: &mut [u8], field: usize, number: u32) {
    line[1 + 5 * field..6 + 5 * field].copy_from_slice(format!("{:>5}", number.min(99_999)).as_bytes());
}

/// A wrong line, among the damages that the request names and a few more; which cause comes first is for the oracle to say.
fn damage(random: &mut Random, station: &Situation, lines: &mut Vec<Vec<u8>>) {
    if lines.is_empty() {
        lines.push(line_text(random.pick(&['R', 'K', 'W']), &[1, 1, 2, 0]));
        return;
    }
    let any = random.place(lines.len());
    let letter = random.pick(b"RRKKKWW");
    let of_letter = with(lines, letter);
    let place = if of_letter.is_empty() { any } else { random.pick(&of_letter) };
    let sections = station.header.sections;
    let elements = station.elements.len() as u32;
    match random.between(1, 22) {
        1 => {
            lines.remove(any);
        }
        2 => {
            let double = lines[any].clone();
            lines.insert(any, double);
        }
        3 => lines[any][0] = random.pick(b"RKWrkwSPLDT \0"),
        4 => lines[any][LINE - 1] = random.pick(b"\r \0"),
        5 => {
            let field = random.place(4);
            let forms: [&[u8]; 8] = [b"     ", b"00001", b"    0", b"  01 ", b"1    ", b" 1  2", b"   +1", b"99999"];
            lines[any][1 + 5 * field..6 + 5 * field].copy_from_slice(random.pick(&forms));
        }
        // A number out of sequence, a signal that is none, too few or too many sections, too many turnouts.
        6 => put(&mut lines[place], 0, random.pick(&[0, 1, 2, 3, 64, 65, 66, 65_537])),
        7 => put(&mut lines[place], 1, random.pick(&[0, 1, 2, 3, elements, elements + 1, 256, 257, 65_537])),
        8 => put(&mut lines[place], 2, random.pick(&[0, 1, 2, 31, 32, 33, 65_538])),
        9 => put(&mut lines[place], 3, random.pick(&[0, 1, 15, 16, 17, 65_536])),
        // A section or an element outside, or any other one.
        10 | 11 => put(&mut lines[place], 0, random.pick(&[0, sections, sections + 1, 513, elements, elements + 1, 65_536, 65_537])),
        12 | 13 => put(&mut lines[place], 0, random.between(1, sections.max(elements))),
        14 => put(&mut lines[place], 1, random.pick(&[0, 1, 2, 3, 257, 258, 65_537])),
        15 => lines.swap(any, place),
        16 | 17 if place > 0 => {
            // A section twice in a row.
            lines[place] = lines[place - 1].clone();
        }
        _ => {
            // Any section of the station: most steps to it and from it stand under no line.
            let sections_of_routes = with(lines, b'K');
            if !sections_of_routes.is_empty() {
                let place = random.pick(&sections_of_routes);
                put(&mut lines[place], 0, random.between(1, sections));
            }
        }
    }
}

/// A station file and a route file.
pub struct Case {
    pub station: Vec<u8>,
    pub file: Vec<u8>,
}

pub fn case(index: u64) -> Case {
    let random = &mut Random::new(!index);
    let situation = station(random);
    let mut lines = text(&routes(random, &situation));
    let wrong = random.pick(&[0, 0, 0, 0, 1, 1, 1, 2, 3]);
    for _ in 0..wrong {
        damage(random, &situation, &mut lines);
    }
    if random.once_in(20) && !lines.is_empty() {
        // More routes than there may be: the first two lines of a route, repeated under new numbers.
        let route: Vec<Vec<u8>> = lines.iter().take(3).cloned().collect();
        lines = (1..=66)
            .flat_map(|number| {
                let mut next = route.clone();
                put(&mut next[0], 0, number);
                next
            })
            .collect();
    }
    let mut file = lines.concat();
    if random.once_in(8) {
        file.truncate(random.place(file.len() + 1));
    }
    if random.once_in(20) && !file.is_empty() {
        let place = random.place(file.len());
        file[place] = random.byte();
    }
    let mut station = law::write(&situation, usize::MAX).expect("a station that is written is accepted");
    if random.once_in(30) {
        let place = random.place(station.len());
        station[place] = random.pick(b" 0123456789SPLDT\n");
    }
    Case { station, file }
}

// ---- the comparison

/// The operation: the station file, the route file, and the lent table.
pub type Operation = fn(&[u8], &[u8], &mut [u8]) -> Filled;

/// One call, with bytes that have to stay as they are behind the lent table.
fn compare_one(operation: Operation, case: &Case, room: usize) -> Result<(), String> {
    const GUARD: usize = 32;
    let held: Vec<u8> = (0..room + GUARD).map(|place| (place * 37 + 5) as u8).collect();
    let mut now = held.clone();
    let given = operation(&case.station, &case.file, &mut now[..room]);
    let wanted = table(&case.station, &case.file, room);
    let length = wanted.as_ref().map_or(0, Vec::len);
    let answer = Filled { refusal: wanted.as_ref().err().copied().unwrap_or(Refusal::NONE), length };
    if given != answer {
        return Err(format!("given {given:?}, wanted {answer:?}"));
    }
    if now[..length] != wanted.unwrap_or_default() || now[length..] != held[length..] {
        return Err("the table is not what is wanted, or bytes are changed that should be as they were".to_string());
    }
    Ok(())
}

/// How often each outcome came: place 0 for a table, then by the number of the refusal.
pub type Outcomes = [u64; 16];

/// Compares an operation with the oracle on so many cases; then on every length and every missing line of one route file. How many calls were
/// compared, or the first difference.
pub fn compare(operation: Operation, cases: u64) -> Result<(u64, Outcomes), String> {
    let mut compared = 0;
    let mut outcomes = [0; 16];
    let mut all = |case: &Case, what: &str| -> Result<(), String> {
        let enough = table(&case.station, &case.file, usize::MAX);
        outcomes[enough.as_ref().err().map_or(0, |refusal| usize::from(refusal.number))] += 1;
        let exact = enough.as_ref().map_or(0, Vec::len);
        for room in [exact, exact.saturating_sub(1), 0, exact + 1, 4095, 4096, 4100] {
            compared += 1;
            compare_one(operation, case, room).map_err(|difference| format!("routes, {what}, {room} bytes lent: {difference}"))?;
        }
        Ok(())
    };
    for index in 0..cases {
        all(&case(index), &format!("case {index}"))?;
    }
    let station = law::write(&station_k(), usize::MAX).expect("station K is accepted");
    let lines = text(&routes_of_k());
    let file = lines.concat();
    for length in 0..=file.len() {
        all(&Case { station: station.clone(), file: file[..length].to_vec() }, &format!("cut to {length} bytes"))?;
    }
    for place in 0..lines.len() {
        let mut fewer = lines.clone();
        fewer.remove(place);
        all(&Case { station: station.clone(), file: fewer.concat() }, &format!("without line {}", place + 1))?;
        for letter in [b'R', b'K', b'W', b'k', b' '] {
            let mut other = lines.clone();
            other[place][0] = letter;
            all(&Case { station: station.clone(), file: other.concat() }, &format!("letter {letter} on line {}", place + 1))?;
        }
        for field in 0..4 {
            for number in 0..7 {
                let mut other = lines.clone();
                put(&mut other[place], field, number);
                all(&Case { station: station.clone(), file: other.concat() }, &format!("{number} in line {}", place + 1))?;
            }
        }
    }
    Ok((compared, outcomes))
}

// ---- station K

fn station_k() -> Situation {
    let mut draft = Draft::new(5);
    draft.plain(2, 1);
    draft.signal(1, 2, 1);
    draft.turnout(2, 3, 4, 0);
    draft.signal(3, 5, 2);
    draft.signal(4, 5, 0);
    draft.situation()
}

/// Four routes: 1 2 3 with the turnout straight; 1 2 4, diverted; 3 5; 4 5, diverted.
fn routes_of_k() -> Vec<(u32, Route)> {
    let route = |sections: &[u32], wants: &[(u32, u32)]| Route { sections: sections.to_vec(), wants: wants.to_vec() };
    vec![(1, route(&[1, 2, 3], &[(2, 1)])), (1, route(&[1, 2, 4], &[(2, 2)])), (3, route(&[3, 5], &[])), (4, route(&[4, 5], &[(2, 2)]))]
}

#[cfg(test)]
mod checks {
    use super::*;
    use crate::subject::fill;

    const TABLE: [u8; 16] = [0, 1, 1, 1, 1, 0, 0, 1, 1, 0, 0, 1, 1, 1, 1, 0];

    #[test]
    fn the_table_of_station_k() {
        let station = law::write(&station_k(), usize::MAX).unwrap();
        assert_eq!(table(&station, &text(&routes_of_k()).concat(), 16).unwrap(), TABLE);
    }

    /// The files of `stations/`.
    #[test]
    fn the_example_in_stations() {
        let station = include_bytes!("../../stations/K.txt");
        let shown = include_str!("../../stations/K.table");
        let table = table(station, include_bytes!("../../stations/K.routes"), 16).unwrap();
        let digits: Vec<u8> = shown.bytes().filter(|&byte| byte != b'\n').map(|byte| byte - b'0').collect();
        assert_eq!(table, digits);
        assert_eq!(table, TABLE);
    }

    /// Each refusal of a route file occurs, and tables with and without a conflict, of 0 and of 64 routes.
    #[test]
    fn every_outcome_occurs() {
        let mut numbers = BTreeSet::new();
        let mut lengths = BTreeSet::new();
        for index in 0..3000 {
            let case = case(index);
            match table(&case.station, &case.file, usize::MAX) {
                Err(refusal) => {
                    numbers.insert(refusal.number);
                }
                Ok(table) => {
                    lengths.insert(table.len());
                    numbers.insert(if table.contains(&1) { 100 } else { 101 });
                }
            }
        }
        assert!([14, 15, 100, 101].iter().all(|number| numbers.contains(number)), "{numbers:?}");
        assert!(lengths.contains(&0) && lengths.contains(&4096), "{lengths:?}");
    }

    /// Wrong operations that the comparison has to catch.
    #[test]
    fn mutants_are_caught() {
        let right: Operation = |station, file, buffer| fill(table(station, file, buffer.len()), buffer);
        let with_itself: Operation = |station, file, buffer| {
            let given = fill(table(station, file, buffer.len()), buffer);
            if given.length > 0 {
                buffer[0] = 1;
            }
            given
        };
        let line_before: Operation = |station, file, buffer| {
            let mut given = fill(table(station, file, buffer.len()), buffer);
            if given.refusal.number == 14 && file.len() % LINE == 0 {
                given.refusal.line -= 1;
            }
            given
        };
        let past_the_end: Operation = |station, file, buffer| {
            let given = fill(table(station, file, buffer.len()), buffer);
            if given.length < buffer.len() {
                buffer[given.length] = 0;
            }
            given
        };
        assert!(compare(right, 50).is_ok());
        for wrong in [with_itself, line_before, past_the_end] {
            assert!(compare(wrong, 50).is_err());
        }
    }
}
