//! Marking drawn paths (02, Item 1): the request in plain Rust, and the library beside it on right drawings and on each way to spoil one.

use std::collections::BTreeSet;

use judge::ffi::{self, Refusal, YesNo};
use oracle::generate;
use oracle::law::{self, Situation};
use oracle::random::Random;

/// So many files, and so many drawings for each.
const FILES: u64 = 4_000;
const DRAWINGS: usize = 12;

/// What a drawing is made of.
#[derive(Clone, Debug)]
struct Drawing {
    trains: [u16; 2],
    lists: [Vec<u16>; 2],
}

/// "It says yes exactly when the trains differ, each list is a path that starts in its train's section, and both end in one section; a
/// section may come twice, and an empty list is no path." A train over several sections has paths from each of them (Item 2).
fn right(situation: &Situation, moves: &BTreeSet<(u32, u32)>, drawing: &Drawing) -> bool {
    let path = |side: usize| -> Option<u32> {
        let list: Vec<u32> = drawing.lists[side].iter().copied().map(u32::from).collect();
        let standing = &situation.trains[usize::from(drawing.trains[side]) - 1];
        (list.first().is_some_and(|start| standing.contains(start)) && list.windows(2).all(|step| moves.contains(&(step[0], step[1]))))
            .then(|| list[list.len() - 1])
    };
    drawing.trains[0] != drawing.trains[1] && path(0).is_some() && path(0) == path(1)
}

/// "It refuses an open element with 10 as the verdict does, and after that with 12 a train number of 0 or above the number of trains."
fn refusal(read: &Result<Situation, Refusal>, drawing: &Drawing) -> Option<Refusal> {
    if let Some(refusal) = law::verdict_refusal(read, usize::MAX, usize::MAX) {
        return Some(refusal);
    }
    let trains = read.as_ref().map_or(0, |situation| situation.trains.len());
    let wrong = drawing.trains.iter().any(|&train| train == 0 || usize::from(train) > trains);
    wrong.then_some(Refusal { number: 12, line: 0 })
}

/// A walk of some steps from where a train stands.
fn walk(random: &mut Random, situation: &Situation, moves: &BTreeSet<(u32, u32)>, train: u16, longest: u32) -> Vec<u16> {
    let mut list = vec![random.pick(&situation.trains[usize::from(train) - 1])];
    for _ in 0..random.between(0, longest) {
        let here = list[list.len() - 1];
        let next: Vec<u32> = moves.range((here, 0)..=(here, u32::MAX)).map(|&(_, to)| to).collect();
        if next.is_empty() {
            break;
        }
        list.push(random.pick(&next));
    }
    list.into_iter().map(|section| section as u16).collect()
}

/// The paths of the verdict where it is dangerous, else two walks.
fn drawn(random: &mut Random, situation: &Situation, moves: &BTreeSet<(u32, u32)>) -> Drawing {
    let trains = situation.trains.len() as u32;
    if let Some(named) = law::verdict(situation).named
        && !random.once_in(4)
    {
        let path = |train: usize| law::shortest_path(situation, train, named.meeting).into_iter().map(|section| section as u16).collect();
        let drawing = Drawing { trains: [named.first as u16, named.second as u16], lists: [path(named.first), path(named.second)] };
        return if random.once_in(2) { exchanged(drawing) } else { drawing };
    }
    let train = |random: &mut Random| if trains == 0 { 1 } else { random.between(1, trains) as u16 };
    let (i, j) = (train(random), train(random));
    let list = |random: &mut Random, t| if trains == 0 { vec![1] } else { walk(random, situation, moves, t, 8) };
    Drawing { trains: [i, j], lists: [list(random, i), list(random, j)] }
}

/// Trains and lists in the other order: as right as before.
fn exchanged(mut drawing: Drawing) -> Drawing {
    drawing.trains.swap(0, 1);
    drawing.lists.swap(0, 1);
    drawing
}

/// Spoils a drawing in one way, or leaves it right in another form.
fn change(random: &mut Random, situation: &Situation, moves: &BTreeSet<(u32, u32)>, mut drawing: Drawing) -> Drawing {
    let side = random.place(2);
    let sections = situation.header.sections;
    match random.between(1, 13) {
        1 => drawing.lists[side].clear(),
        2 => drawing.trains[side] = drawing.trains[1 - side],
        3 => drawing.trains.swap(0, 1),
        4 => drawing.lists.swap(0, 1),
        5 => drawing.trains[side] = random.pick(&[0, situation.trains.len() as u16 + 1, 65, u16::MAX]),
        6 => drawing.lists[side].push(random.pick(&[0, sections as u16 + 1, 513, u16::MAX])),
        // another start, another end
        7 => drawing.lists[side].insert(0, random.between(1, sections) as u16),
        8 => drawing.lists[side].push(random.between(1, sections) as u16),
        // one section less: a step over it, or another start or end
        9 if !drawing.lists[side].is_empty() => {
            let place = random.place(drawing.lists[side].len());
            drawing.lists[side].remove(place);
        }
        // the same walk the other way: against signals
        10 => drawing.lists[side].reverse(),
        // there and back, where both ways are permitted: a section twice
        11 if !drawing.lists[side].is_empty() => {
            let place = random.place(drawing.lists[side].len());
            let here = drawing.lists[side][place];
            let back: Vec<u16> = moves
                .range((u32::from(here), 0)..=(u32::from(here), u32::MAX))
                .filter(|&&(from, to)| moves.contains(&(to, from)))
                .map(|&(_, to)| to as u16)
                .collect();
            if !back.is_empty() {
                let there = random.pick(&back);
                drawing.lists[side].splice(place + 1..place + 1, [there, here]);
            }
        }
        // longer than the station has sections
        12 if !drawing.lists[side].is_empty() => {
            let start = drawing.lists[side][0];
            drawing.lists[side].splice(0..0, vec![start; 600]);
        }
        _ => {}
    }
    drawing
}

/// How many drawings were compared, or the first that differs.
pub fn compare() -> Result<u64, String> {
    let mut compared = 0;
    let mut yes = 0;
    for index in 0..FILES {
        let random = &mut Random::new(index ^ 0x6472_6177);
        let file = generate::case(index).file;
        let read = law::read(&file);
        let empty = Situation {
            header: law::Header { long: false, sections: 1, plain: 0, elements: 0, trains: 0 },
            plain: vec![],
            elements: vec![],
            trains: vec![],
        };
        let situation = read.as_ref().unwrap_or(&empty);
        let moves = law::moves(situation);
        for _ in 0..DRAWINGS {
            let mut drawing = drawn(random, situation, &moves);
            if !random.once_in(3) {
                drawing = change(random, situation, &moves, drawing);
            }
            let wanted = match refusal(&read, &drawing) {
                Some(refusal) => YesNo { refusal, yes: 0 },
                None => YesNo { refusal: Refusal::NONE, yes: u16::from(right(situation, &moves, &drawing)) },
            };
            let given = ffi::drawing(&file, drawing.trains[0], drawing.trains[1], &drawing.lists[0], &drawing.lists[1]);
            if given != wanted {
                return Err(format!("file {index}, {drawing:?}: {given:?} in place of {wanted:?}"));
            }
            compared += 1;
            yes += u64::from(given.yes);
        }
    }
    if yes < compared / 50 {
        return Err(format!("only {yes} of {compared} drawings are right"));
    }
    Ok(compared)
}
