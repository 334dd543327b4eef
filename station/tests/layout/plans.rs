//! Track plans as stations have them, made by number: ladders, double lines with crossovers, yards, junctions, loops.

use judge::{ElementLine, Letter, Section, Situation, State};
use oracle::random::Random;

/// A station that is being made. Sections are numbered from 1.
pub struct Plan {
    pub name: String,
    random: Random,
    situation: Situation,
    /// Pairs that are joined, in both orders.
    joined: Vec<[u16; 2]>,
    legs: Vec<[u16; 2]>,
}

impl Plan {
    fn new(name: &str, seed: u64) -> Plan {
        let situation = Situation { letter: Letter::S, sections: 0, plain: vec![], elements: vec![], trains: vec![] };
        Plan { name: String::from(name), random: Random::new(seed), situation, joined: vec![], legs: vec![] }
    }

    fn section(&mut self) -> u16 {
        self.situation.sections += 1;
        self.situation.sections
    }

    fn state(&mut self) -> State {
        if self.random.once_in(2) { State::One } else { State::Two }
    }

    fn note(&mut self, one: u16, two: u16) {
        self.joined.extend([[one, two], [two, one]]);
    }

    fn signal(&mut self, from: u16, to: u16) {
        let state = self.state();
        self.situation.elements.push(ElementLine::Signal { from: Section(from), to: Section(to), state });
    }

    /// P lines there and back.
    fn plain(&mut self, one: u16, two: u16) {
        self.situation.plain.extend([(Section(one), Section(two)), (Section(two), Section(one))]);
        self.note(one, two);
    }

    /// Signals or P lines, or one of each, as it comes.
    fn join(&mut self, one: u16, two: u16) {
        match self.random.between(0, 3) {
            0 => return self.plain(one, two),
            1 => {
                self.signal(one, two);
                self.signal(two, one);
            }
            2 => {
                self.signal(one, two);
                self.situation.plain.push((Section(two), Section(one)));
            }
            _ => self.situation.plain.push((Section(one), Section(two))),
        }
        self.note(one, two);
    }

    fn turnout(&mut self, stem: u16, straight: u16, diverted: u16) {
        let state = self.state();
        self.situation.elements.push(ElementLine::Turnout {
            stem: Section(stem),
            straight: Section(straight),
            diverted: Section(diverted),
            state,
        });
        self.legs.extend([[stem, straight], [stem, diverted]]);
        self.note(stem, straight);
        self.note(stem, diverted);
        // A signal at the points, now and then.
        if self.random.once_in(6) {
            self.signal(straight, stem);
        }
        if self.random.once_in(6) {
            self.signal(diverted, stem);
        }
    }

    /// So many further sections in a row behind one; the last of them.
    fn line(&mut self, from: u16, sections: u32) -> u16 {
        (0..sections).fold(from, |last, _| {
            let next = self.section();
            self.join(last, next);
            next
        })
    }

    /// Trains of one to four sections, none on another.
    fn trains(&mut self, number: u32) {
        let mut free: Vec<bool> = vec![true; usize::from(self.situation.sections) + 1];
        for _ in 0..number {
            let mut at = self.random.between(1, u32::from(self.situation.sections)) as u16;
            let wanted = self.random.pick(&[1, 1, 2, 3, 4]);
            let mut train = vec![];
            while train.len() < wanted && free[usize::from(at)] {
                free[usize::from(at)] = false;
                train.push(Section(at));
                let beside: Vec<u16> =
                    self.joined.iter().filter(|pair| pair[0] == at && !self.legs.contains(pair)).map(|pair| pair[1]).collect();
                let Some(&next) = beside.iter().find(|next| free[usize::from(**next)]) else { break };
                at = next;
            }
            if !train.is_empty() {
                if train.len() > 1 {
                    self.situation.letter = Letter::U;
                }
                self.situation.trains.push(train);
            }
        }
    }

    /// Numbers the sections anew, so that no number says where a section stands.
    fn shuffle(&mut self) {
        let mut numbers: Vec<u16> = (1..=self.situation.sections).collect();
        self.random.shuffle(&mut numbers);
        let new = |section: &mut Section| section.0 = numbers[usize::from(section.0) - 1];
        for (from, to) in &mut self.situation.plain {
            new(from);
            new(to);
        }
        for element in &mut self.situation.elements {
            match element {
                ElementLine::Signal { from, to, .. } => [from, to].into_iter().for_each(new),
                ElementLine::Turnout { stem, straight, diverted, .. } => [stem, straight, diverted].into_iter().for_each(new),
            }
        }
        self.situation.trains.iter_mut().flatten().for_each(new);
        self.random.shuffle(&mut self.situation.elements);
        self.random.shuffle(&mut self.situation.plain);
    }

    /// Platforms between two ladders of turnouts. The straight legs are the ladder, or they are the platforms.
    fn ladders(&mut self) {
        let platforms = self.random.between(2, 8);
        let length = self.random.between(1, 4);
        let straight_platforms = self.random.once_in(2);
        let start = self.section();
        let approach = self.random.between(0, 3);
        let mut left = self.line(start, approach);
        let mut ends = vec![];
        for _ in 0..platforms {
            ends.push((self.section(), 0));
        }
        // The left ladder.
        for place in 0..ends.len() - 1 {
            let track = ends[place].0;
            let next = if place + 2 == ends.len() { ends[place + 1].0 } else { self.section() };
            if straight_platforms {
                self.turnout(left, track, next)
            } else {
                self.turnout(left, next, track)
            }
            left = next;
        }
        for end in &mut ends {
            end.1 = self.line(end.0, length);
        }
        // The right ladder.
        let mut right = ends[ends.len() - 1].1;
        for place in (0..ends.len() - 1).rev() {
            let stem = self.section();
            if straight_platforms {
                self.turnout(stem, ends[place].1, right)
            } else {
                self.turnout(stem, right, ends[place].1)
            }
            right = stem;
        }
        let departure = self.random.between(0, 3);
        self.line(right, departure);
    }

    /// Platforms that end at buffers, on one ladder.
    fn terminus(&mut self) {
        let platforms = self.random.between(2, 7);
        let start = self.section();
        let approach = self.random.between(1, 3);
        let mut lead = self.line(start, approach);
        for platform in 1..platforms {
            let (track, next) = (self.section(), self.section());
            if self.random.once_in(2) {
                self.turnout(lead, track, next)
            } else {
                self.turnout(lead, next, track)
            }
            let length = self.random.between(0, 3);
            self.line(track, length);
            if platform + 1 == platforms {
                let length = self.random.between(0, 3);
                self.line(next, length);
            }
            lead = next;
        }
    }

    /// Two lines side by side with crossovers, each by a section between two turnouts, and now and then a loop.
    fn double_line(&mut self) {
        let mut ends = [self.section(), self.section()];
        let crossovers = self.random.between(1, 5);
        for _ in 0..crossovers {
            for end in &mut ends {
                let length = self.random.between(1, 3);
                *end = self.line(*end, length);
            }
            match self.random.between(0, 3) {
                0 | 1 => {
                    // From the one line, to the right, to the other.
                    let from = usize::from(self.random.once_in(2));
                    let (over, straight, joined) = (self.section(), self.section(), self.section());
                    self.turnout(ends[from], straight, over);
                    self.turnout(joined, ends[1 - from], over);
                    ends[from] = straight;
                    ends[1 - from] = joined;
                }
                2 => {
                    // A loop beside one line.
                    let of = usize::from(self.random.once_in(2));
                    let (main, side, after) = (self.section(), self.section(), self.section());
                    self.turnout(ends[of], main, side);
                    let length = self.random.between(1, 2);
                    let (main, side) = (self.line(main, length), self.line(side, length));
                    self.turnout(after, main, side);
                    ends[of] = after;
                }
                _ => {
                    // Without a section between: the leg of the one line is the other's section.
                    let (straight, other) = (self.section(), self.section());
                    let from = usize::from(self.random.once_in(2));
                    self.turnout(ends[from], straight, other);
                    self.join(ends[1 - from], other);
                    ends[from] = straight;
                    ends[1 - from] = other;
                }
            }
        }
        for end in ends {
            let length = self.random.between(1, 2);
            self.line(end, length);
        }
    }

    /// Lines that part and part again.
    fn junction(&mut self) {
        let start = self.section();
        let approach = self.random.between(0, 2);
        let mut open = vec![self.line(start, approach)];
        let partings = self.random.between(2, 6);
        for _ in 0..partings {
            let place = self.random.place(open.len());
            let stem = open.remove(place);
            let (straight, diverted) = (self.section(), self.section());
            self.turnout(stem, straight, diverted);
            for end in [straight, diverted] {
                let length = self.random.between(0, 3);
                let end = self.line(end, length);
                open.push(end);
            }
        }
        // Some of them come together again.
        if open.len() > 2 && self.random.once_in(2) {
            let stem = self.section();
            self.turnout(stem, open[0], open[1]);
            let length = self.random.between(0, 2);
            self.line(stem, length);
        }
    }

    /// Passing loops on one line.
    fn passing_loops(&mut self) {
        let mut at = self.section();
        let loops = self.random.between(1, 5);
        for _ in 0..loops {
            let before = self.random.between(0, 2);
            at = self.line(at, before);
            let (main, side, after) = (self.section(), self.section(), self.section());
            self.turnout(at, main, side);
            let (longer, shorter) = (self.random.between(1, 3), self.random.between(0, 1));
            let (main, side) = (self.line(main, longer), self.line(side, shorter));
            self.turnout(after, main, side);
            at = after;
        }
        let last = self.random.between(1, 2);
        self.line(at, last);
    }

    /// A through station with a yard behind it, reached from the main line.
    fn yard(&mut self) {
        let start = self.section();
        let approach = self.random.between(1, 2);
        let stem = self.line(start, approach);
        let (main, lead) = (self.section(), self.section());
        self.turnout(stem, main, lead);
        let length = self.random.between(3, 6);
        let last = self.line(main, length);
        let mut lead = lead;
        let sidings = self.random.between(2, 5);
        for _ in 0..sidings {
            let (siding, next) = (self.section(), self.section());
            self.turnout(lead, next, siding);
            let length = self.random.between(0, 2);
            self.line(siding, length);
            lead = next;
        }
        if self.random.once_in(2) {
            let after = self.section();
            self.turnout(after, last, lead);
            let length = self.random.between(1, 2);
            self.line(after, length);
        }
    }
}

/// How many sorts of plans there are.
pub const SORTS: u64 = 6;

/// A plan by its number: the sorts in turn, each second round with its sections numbered by chance.
pub fn plan(index: u64) -> (String, Situation) {
    let sorts: [(&str, fn(&mut Plan)); SORTS as usize] = [
        ("ladders", Plan::ladders),
        ("terminus", Plan::terminus),
        ("double-line", Plan::double_line),
        ("junction", Plan::junction),
        ("passing-loops", Plan::passing_loops),
        ("yard", Plan::yard),
    ];
    let (name, make) = sorts[(index % SORTS) as usize];
    let mut plan = Plan::new(&format!("{name}-{index}"), index);
    make(&mut plan);
    let trains = plan.random.between(1, 6);
    plan.trains(trains);
    if (index / SORTS) % 2 == 1 {
        plan.shuffle();
    }
    (plan.name, plan.situation)
}

fn made(sections: u16, trains: &[&[u16]], make: impl FnOnce(&mut Plan)) -> Situation {
    let mut plan = Plan::new("", 1);
    plan.situation.sections = sections;
    make(&mut plan);
    plan.situation.trains = trains.iter().map(|train| train.iter().map(|&section| Section(section)).collect()).collect();
    plan.situation.letter = if trains.iter().any(|train| train.len() > 1) { Letter::U } else { Letter::S };
    plan.situation
}

/// Both directions of a run of sections.
fn both(plan: &mut Plan, sections: &[u16]) {
    sections.windows(2).for_each(|pair| plan.plain(pair[0], pair[1]));
}

/// Four tracks between the turnouts at either end.
fn terminal() -> Situation {
    made(40, &[&[17, 18, 19], &[25, 24, 23], &[1], &[40, 39], &[36]], |plan| {
        for run in [&[14, 15, 16][..], &[17, 18, 19], &[22, 21, 20], &[25, 24, 23]] {
            both(plan, run);
        }
        for (from, to) in [(6, 5), (5, 4), (40, 39), (39, 38), (38, 34)] {
            plan.situation.plain.push((Section(from), Section(to)));
        }
        for (from, to) in [(1, 2), (2, 3)] {
            plan.signal(from, to);
        }
        let turnout = |plan: &mut Plan, stem, straight, diverted, state| {
            plan.situation.elements.push(ElementLine::Turnout {
                stem: Section(stem),
                straight: Section(straight),
                diverted: Section(diverted),
                state,
            });
        };
        for (stem, straight, diverted, state) in
            [(3, 7, 8, State::One), (6, 9, 8, State::Two), (7, 10, 11, State::One), (9, 13, 12, State::Two)]
        {
            turnout(plan, stem, straight, diverted, state);
        }
        for (from, to) in [
            (10, 14),
            (14, 10),
            (16, 26),
            (26, 16),
            (11, 17),
            (17, 11),
            (19, 27),
            (27, 19),
            (12, 20),
            (20, 12),
            (22, 28),
            (28, 22),
            (13, 23),
            (23, 13),
            (25, 29),
            (29, 25),
        ] {
            plan.signal(from, to);
        }
        for (stem, straight, diverted, state) in
            [(30, 26, 27, State::Two), (31, 29, 28, State::One), (32, 30, 33, State::One), (34, 31, 33, State::One)]
        {
            turnout(plan, stem, straight, diverted, state);
        }
        for (from, to) in [(27, 30), (30, 27), (28, 31), (32, 35), (35, 36), (36, 37), (37, 36)] {
            plan.signal(from, to);
        }
    })
}

/// Plans by hand, with the folds, the third legs and the crossings that their own tracks force: only the scissors cross.
pub fn by_hand() -> Vec<(&'static str, Situation, [usize; 3])> {
    let triangle = made(9, &[&[1], &[5]], |plan| {
        // Three stems, each with a leg towards each other one.
        both(plan, &[1, 2]);
        both(plan, &[3, 4]);
        both(plan, &[5, 6]);
        plan.turnout(2, 7, 8);
        plan.turnout(4, 7, 9);
        plan.turnout(6, 8, 9);
    });
    let balloon = made(9, &[&[1]], |plan| {
        both(plan, &[1, 2, 3]);
        both(plan, &[4, 5, 6, 7, 8, 9]);
        plan.turnout(3, 4, 9);
    });
    let ring = made(12, &[&[1], &[7, 8]], |plan| both(plan, &[1, 2, 3, 4, 5, 6, 7, 8, 9, 10, 11, 12, 1]));
    let scissors = made(12, &[&[1], &[12]], |plan| {
        // Lines 1 to 5 and 6 to 10, and between them two tracks that cross: 11 and 12.
        both(plan, &[1, 2]);
        both(plan, &[4, 5]);
        both(plan, &[6, 7]);
        both(plan, &[9, 10]);
        plan.turnout(2, 3, 11);
        plan.turnout(7, 8, 12);
        plan.turnout(4, 3, 12);
        plan.turnout(9, 8, 11);
    });
    let three_way = made(8, &[&[1]], |plan| {
        // A line that parts in three, two of which come together again.
        both(plan, &[1, 2]);
        plan.turnout(2, 3, 4);
        plan.turnout(3, 5, 6);
        both(plan, &[4, 7]);
        plan.turnout(8, 5, 6);
    });
    let run_round = made(14, &[&[9, 10]], |plan| {
        // A terminus where an engine runs round its train, on a loop before the buffers.
        both(plan, &[1, 2, 3]);
        plan.turnout(3, 4, 5);
        both(plan, &[4, 6, 7]);
        both(plan, &[5, 8]);
        plan.turnout(9, 7, 8);
        both(plan, &[9, 10, 11]);
        plan.turnout(1, 12, 13);
        both(plan, &[13, 14]);
    });
    vec![
        ("terminal", terminal(), [0, 0, 0]),
        ("triangle", triangle, [0, 0, 0]),
        ("balloon", balloon, [0, 0, 0]),
        ("ring", ring, [0, 0, 0]),
        ("scissors", scissors, [0, 0, 1]),
        ("three-way", three_way, [0, 0, 0]),
        ("run-round", run_round, [0, 0, 0]),
    ]
}

/// 512 sections: 16 lines of 32, joined by crossovers.
pub fn large() -> Situation {
    let mut plan = Plan::new("large", 7);
    plan.situation.sections = 512;
    for line in 0..16_u16 {
        let at = |place: u16| line * 32 + place + 1;
        for place in 0..31_u16 {
            if line < 15 && place % 8 == 3 {
                // The diverted leg leads to the next line.
                plan.turnout(at(place), at(place + 1), at(place + 1) + 32);
            } else {
                both(&mut plan, &[at(place), at(place + 1)]);
            }
        }
    }
    plan.situation.plain.truncate(judge::MAX_PLAIN);
    plan.situation
}

/// 512 sections with as many lines as a file can have, joined by chance.
pub fn tangle() -> Situation {
    let mut plan = Plan::new("tangle", 3);
    plan.situation.sections = 512;
    while plan.situation.elements.len() < judge::MAX_ELEMENTS {
        let [stem, straight, diverted] = [0; 3].map(|_: u32| plan.random.between(1, 512) as u16);
        let new = |pair: [u16; 2]| pair[0] != pair[1] && !plan.joined.contains(&pair);
        if straight != diverted && new([stem, straight]) && new([stem, diverted]) {
            plan.situation.elements.push(ElementLine::Turnout {
                stem: Section(stem),
                straight: Section(straight),
                diverted: Section(diverted),
                state: State::One,
            });
            plan.note(stem, straight);
            plan.note(stem, diverted);
        }
    }
    while plan.situation.plain.len() < judge::MAX_PLAIN {
        let [from, to] = [0; 2].map(|_: u32| plan.random.between(1, 512) as u16);
        if from != to && !plan.joined.contains(&[from, to]) {
            plan.situation.plain.push((Section(from), Section(to)));
            plan.joined.push([from, to]);
        }
    }
    plan.situation
}

/// A plan as a file.
pub fn file(situation: &Situation) -> Vec<u8> {
    judge::to_bytes(situation).unwrap_or_else(|refusal| panic!("{refusal}"))
}

/// Whether a train stands over two sections, one after the other.
pub fn coupled(situation: &Situation, pair: [usize; 2]) -> bool {
    situation.trains.iter().flat_map(|train| train.windows(2)).any(|two| {
        let two = [usize::from(two[0].0), usize::from(two[1].0)];
        two == pair || two == [pair[1], pair[0]]
    })
}
