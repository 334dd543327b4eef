//! Stations that are accepted, small and large: chains, rings, dense ones, trees of turnouts, many trains, open elements, long trains.

use std::collections::BTreeSet;

use crate::law::{Element, Header, MOST, MOST_OPEN, Situation};
use crate::random::Random;

/// A station in the making. A line that would be refused is left out.
pub struct Draft {
    sections: u32,
    plain: Vec<(u32, u32)>,
    elements: Vec<Element>,
    trains: Vec<Vec<u32>>,
    /// The pairs that are closed to signals, under a P line or a signal, and those that are closed to turnouts.
    no_signal: BTreeSet<(u32, u32)>,
    no_turnout: BTreeSet<(u32, u32)>,
}

impl Draft {
    pub fn new(sections: u32) -> Draft {
        Draft { sections, plain: vec![], elements: vec![], trains: vec![], no_signal: BTreeSet::new(), no_turnout: BTreeSet::new() }
    }

    /// Takes ordered pairs for a new line that closes them to signals, to turnouts, or to both; false where one of them is not to be had.
    fn take(&mut self, pairs: &[(u32, u32)], signal: bool, turnout: bool) -> bool {
        let free = pairs
            .iter()
            .all(|pair| pair.0 != pair.1 && !(signal && self.no_signal.contains(pair)) && !(turnout && self.no_turnout.contains(pair)));
        if free && signal {
            self.no_signal.extend(pairs);
        }
        if free && turnout {
            self.no_turnout.extend(pairs);
        }
        free
    }

    pub fn plain(&mut self, from: u32, to: u32) {
        if self.plain.len() < MOST[1] as usize && self.take(&[(from, to)], true, true) {
            self.plain.push((from, to));
        }
    }

    pub fn signal(&mut self, from: u32, to: u32, state: u32) {
        if self.elements.len() < MOST[2] as usize && self.take(&[(from, to)], true, false) {
            self.elements.push(Element::Signal { from, to, state });
        }
    }

    pub fn turnout(&mut self, stem: u32, straight: u32, diverted: u32, state: u32) {
        let pairs = [(stem, straight), (straight, stem), (stem, diverted), (diverted, stem)];
        if self.elements.len() < MOST[2] as usize && straight != diverted && self.take(&pairs, false, true) {
            self.elements.push(Element::Turnout { stem, straight, diverted, state });
        }
    }

    pub fn train(&mut self, section: u32) {
        self.long_train(&[section]);
    }

    /// A train over several sections; a station with one of more than one is written with U.
    pub fn long_train(&mut self, sections: &[u32]) {
        if self.trains.len() < MOST[3] as usize {
            self.trains.push(sections.to_vec());
        }
    }

    pub fn without_trains(mut self) -> Draft {
        self.trains.clear();
        self
    }

    pub fn plain_lines(&self) -> usize {
        self.plain.len()
    }

    pub fn elements(&self) -> usize {
        self.elements.len()
    }

    pub fn situation(self) -> Situation {
        Situation {
            header: Header {
                long: self.trains.iter().any(|train| train.len() > 1),
                sections: self.sections,
                plain: self.plain.len() as u32,
                elements: self.elements.len() as u32,
                trains: self.trains.len() as u32,
            },
            plain: self.plain,
            elements: self.elements,
            trains: self.trains,
        }
    }

    /// A move from one section to another by a line of any kind.
    fn connect(&mut self, random: &mut Random, from: u32, to: u32) {
        let state = random.between(1, 2);
        let other = random.between(1, self.sections);
        match random.between(1, 6) {
            1..=3 => self.plain(from, to),
            4 => self.signal(from, to, state),
            5 => self.turnout(from, to, other, state),
            _ => self.turnout(to, other, from, state),
        }
    }

    /// So many moves between any two sections.
    fn connect_any(&mut self, random: &mut Random, times: u32) {
        for _ in 0..times {
            let (from, to) = (random.between(1, self.sections), random.between(1, self.sections));
            self.connect(random, from, to);
        }
    }

    fn trains_anywhere(&mut self, random: &mut Random, number: u32) {
        for _ in 0..number {
            self.train(random.between(1, self.sections));
        }
    }
}

/// The section numbers in any order.
fn numbering(random: &mut Random, sections: u32) -> Vec<u32> {
    let mut order: Vec<u32> = (1..=sections).collect();
    if !random.once_in(3) {
        random.shuffle(&mut order);
    }
    order
}

/// A station, and what it is like.
pub fn station(random: &mut Random) -> (String, Situation) {
    let (name, draft) = match random.between(1, 44) {
        1..=12 => ("small", small(random)),
        41..=44 => ("points", points(random)),
        13..=18 => ("station K", station_k(random)),
        19..=22 => ("chain", chain(random)),
        23..=27 => ("rings", rings(random)),
        28..=29 => ("dense", dense(random)),
        30..=32 => ("tree", tree(random)),
        33..=35 => ("many trains", many_trains(random)),
        36..=37 => ("bare", bare(random)),
        38..=39 => ("middling", middling(random)),
        _ => ("largest", largest(random)),
    };
    let mut situation = draft.situation();
    let open = open_elements(random, &mut situation);
    let long = if random.once_in(3) { lengthen(random, &mut situation) } else { 0 };
    let letter = if situation.header.long { 'U' } else { 'S' };
    (format!("{letter}, {name}, {} sections, {open} open, {long} long trains", situation.header.sections), situation)
}

/// Makes a U file of a station: trains get up to three further sections, by a P line from the last one where there is such a line, or
/// anywhere. Gives back how many trains got some.
fn lengthen(random: &mut Random, situation: &mut Situation) -> usize {
    situation.header.long = true;
    let anywhere = random.once_in(3);
    let mut long = 0;
    for train in &mut situation.trains {
        for _ in 0..random.between(0, 3) {
            let last = train[train.len() - 1];
            let next: Vec<u32> = situation.plain.iter().filter(|pair| pair.0 == last).map(|pair| pair.1).collect();
            let section = match next.is_empty() || anywhere {
                true => random.between(1, situation.header.sections),
                false => random.pick(&next),
            };
            if !train.contains(&section) {
                train.push(section);
            }
        }
        long += usize::from(train.len() > 1);
    }
    long
}

fn small(random: &mut Random) -> Draft {
    let mut draft = Draft::new(random.between(1, 9));
    let times = random.between(0, 14);
    draft.connect_any(random, times);
    let trains = random.between(0, 4);
    draft.trains_anywhere(random, trains);
    draft
}

/// Station K of document 01 with any states and trains.
fn station_k(random: &mut Random) -> Draft {
    let mut draft = Draft::new(5);
    draft.plain(2, 1);
    draft.signal(1, 2, random.between(1, 2));
    draft.turnout(2, 3, 4, random.between(1, 2));
    draft.signal(3, 5, random.between(1, 2));
    draft.signal(4, 5, random.between(1, 2));
    let trains = random.between(0, 4);
    draft.trains_anywhere(random, trains);
    draft
}

/// One long way through all sections, in one direction or in both.
fn chain(random: &mut Random) -> Draft {
    let most = random.pick(&[6, 20, 70, 512]);
    let sections = if most == 512 && random.once_in(2) { 512 } else { random.between(2, most) };
    let order = numbering(random, sections);
    let both_ways = random.once_in(2);
    let only_plain = random.once_in(3);
    let mut draft = Draft::new(sections);
    for step in order.windows(2) {
        if only_plain {
            draft.plain(step[0], step[1]);
        } else {
            draft.connect(random, step[0], step[1]);
        }
        if both_ways {
            draft.plain(step[1], step[0]);
        }
    }
    for _ in 0..random.between(0, 3) {
        let place = random.pick(&[0, order.len() - 1, order.len() / 2]);
        draft.train(order[place]);
    }
    draft
}

/// Rings with a train in each, joined here and there by signals and turnouts.
fn rings(random: &mut Random) -> Draft {
    let rings = random.pick(&[2, 3, 4, 9, 64]);
    let size = random.between(1, if rings == 64 { 8 } else { 6 });
    let sections = rings * size + random.between(0, 3);
    let sections = sections.min(MOST[0]);
    let order = numbering(random, sections);
    let mut draft = Draft::new(sections);
    for ring in order.chunks_exact(size as usize).take(rings as usize) {
        for (place, &from) in ring.iter().enumerate() {
            let to = ring[(place + 1) % ring.len()];
            if random.once_in(8) {
                draft.signal(from, to, random.between(1, 2));
            } else {
                draft.plain(from, to);
            }
        }
        draft.train(random.pick(ring));
    }
    for _ in 0..random.between(0, 12) {
        let (one, two, three) = (random.pick(&order), random.pick(&order), random.pick(&order));
        match random.between(1, 4) {
            1 => draft.turnout(one, two, three, random.between(1, 2)),
            _ => draft.signal(one, two, 2),
        }
    }
    draft
}

/// Nearly every ordered pair of a few sections.
fn dense(random: &mut Random) -> Draft {
    let sections = random.pick(&[4, 8, 15, 33]);
    let mut pairs: Vec<(u32, u32)> = (1..=sections).flat_map(|from| (1..=sections).map(move |to| (from, to))).collect();
    random.shuffle(&mut pairs);
    let mut draft = Draft::new(sections);
    for (from, to) in pairs {
        match random.between(1, 12) {
            1 => draft.signal(from, to, random.between(1, 2)),
            2 => draft.turnout(from, to, random.between(1, sections), random.between(1, 2)),
            3 => {}
            _ => draft.plain(from, to),
        }
    }
    let trains = random.between(0, 3);
    draft.trains_anywhere(random, trains);
    draft
}

/// A tree of turnouts, each leg the stem of the next.
fn tree(random: &mut Random) -> Draft {
    let most = random.pick(&[8, 24, 100, 512]);
    let sections = random.between(3, most);
    let order = numbering(random, sections);
    let mut draft = Draft::new(sections);
    for place in 0..(sections as usize - 1) / 2 {
        draft.turnout(order[place], order[2 * place + 1], order[2 * place + 2], random.between(1, 2));
    }
    let (times, trains) = (random.between(0, 3), random.between(0, 6));
    draft.connect_any(random, times);
    draft.trains_anywhere(random, trains);
    draft
}

/// Turnouts with signals over some of their pairs, before or after their line.
fn points(random: &mut Random) -> Draft {
    let most = random.pick(&[4, 7, 12, 60]);
    let sections = random.between(3, most);
    let order = numbering(random, sections);
    let mut draft = Draft::new(sections);
    for place in 0..(sections as usize - 1) / 2 {
        let (stem, straight, diverted) = (order[place], order[2 * place + 1], order[2 * place + 2]);
        let pairs = [(stem, straight), (straight, stem), (stem, diverted), (diverted, stem)];
        // 1 is a signal before the D line, 2 one after it.
        let signals = [(); 4].map(|()| random.between(0, 3));
        for time in 1..=2 {
            for (pair, _) in pairs.iter().zip(signals).filter(|(_, signal)| *signal == time) {
                draft.signal(pair.0, pair.1, random.between(1, 2));
            }
            if time == 1 {
                draft.turnout(stem, straight, diverted, random.between(1, 2));
            }
        }
    }
    let (times, trains) = (random.between(0, 4), random.between(0, 5));
    draft.connect_any(random, times);
    draft.trains_anywhere(random, trains);
    draft
}

/// Up to 64 trains and few moves, so that many situations are safe or become dangerous late.
fn many_trains(random: &mut Random) -> Draft {
    let sections = random.between(64, 512);
    let order = numbering(random, sections);
    let mut draft = Draft::new(sections);
    let times = random.between(0, 40);
    draft.connect_any(random, times);
    let trains = random.pick(&[20, 63, 64]);
    for &section in &order[..trains] {
        draft.train(section);
    }
    if random.once_in(2) {
        draft.trains[trains - 1] = vec![random.pick(&order)];
    }
    draft
}

/// No moves at all.
fn bare(random: &mut Random) -> Draft {
    let sections = random.pick(&[1, 2, 511, 512]);
    let mut draft = Draft::new(sections);
    let trains = random.pick(&[0, 1, 2, 64]);
    draft.trains_anywhere(random, trains);
    draft
}

fn middling(random: &mut Random) -> Draft {
    let mut draft = Draft::new(random.between(10, 120));
    let times = random.between(0, 150);
    draft.connect_any(random, times);
    let trains = random.between(0, 10);
    draft.trains_anywhere(random, trains);
    draft
}

/// Every count at its limit, or one below.
fn largest(random: &mut Random) -> Draft {
    let mut draft = Draft::new(random.between(511, 512));
    let (elements, plain, trains) = (random.between(255, 256), random.between(1023, 1024), random.between(63, 64));
    while draft.elements.len() < elements as usize {
        let (one, two, three) = (random.between(1, 511), random.between(1, 511), random.between(1, 511));
        match random.between(1, 2) {
            1 => draft.signal(one, two, random.between(1, 2)),
            _ => draft.turnout(one, two, three, random.between(1, 2)),
        }
    }
    // In half of the stations the moves stay between neighbours, so that reaches are small.
    let near = random.once_in(2);
    while draft.plain.len() < plain as usize {
        let from = random.between(1, 511);
        let to = if near { (from + random.between(0, 6)).clamp(3, 514) - 3 } else { random.between(1, 511) };
        draft.plain(from, to.max(1));
    }
    draft.trains_anywhere(random, trains);
    draft
}

/// Opens some elements and gives back how many are open. Large stations have few open elements most of the time, since the oracle
/// judges each setting from scratch.
fn open_elements(random: &mut Random, situation: &mut Situation) -> usize {
    let wanted = match random.between(1, 100) {
        1..=45 => 0,
        46..=80 => random.between(1, 5),
        81..=85 => random.between(6, 11),
        86..=87 => 12,
        88..=94 => 13,
        _ => random.between(14, 256),
    } as usize;
    let few = match situation.header.sections {
        0..=24 => MOST_OPEN,
        25..=80 => 6,
        _ => 3,
    };
    let wanted = if wanted <= MOST_OPEN && !random.once_in(100) { wanted.min(few) } else { wanted };
    let mut places: Vec<usize> = (0..situation.elements.len()).collect();
    random.shuffle(&mut places);
    places.truncate(wanted);
    for &place in &places {
        match &mut situation.elements[place] {
            Element::Signal { state, .. } | Element::Turnout { state, .. } => *state = 0,
        }
    }
    places.len()
}
