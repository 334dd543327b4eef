//! Stations that are hard for the judge, each for some operations.

use crate::{answers, report};
use judge::Mark;
use oracle::generate::stations::Draft;
use oracle::law;
use oracle::random::Random;

pub struct Station {
    pub name: &'static str,
    pub about: &'static str,
    pub file: Vec<u8>,
    /// Where the operation takes mark records in place of a file.
    pub marks: Vec<Mark>,
    /// The operations that the table of times has for it.
    pub operations: &'static [&'static str],
}

impl Station {
    fn new(name: &'static str, about: &'static str, operations: &'static [&'static str], draft: Draft) -> Station {
        let situation = draft.situation();
        let file = law::write(&situation, usize::MAX).expect("the station is accepted");
        Station { name, about, file, marks: vec![], operations }
    }
}

/// All stations of the benchmark.
pub fn stations() -> Vec<Station> {
    vec![
        Station::new(
            "largest",
            "29,590 bytes; 62 trains that stand alone, then two in one large net",
            &["read", "write", "verdict", "key"],
            largest(),
        ),
        padded(Station::new("padded", "the largest with zeros in place of the spaces before a number", &["read"], largest())),
        Station::new("chain", "one way through 512 sections, both directions, two trains", &["read", "verdict", "key"], chain(&[])),
        Station::new("rings", "64 trains in 64 rings of 8 sections, safe", &["read", "write", "verdict"], rings(Open::None)),
        Station::new(
            "long-rings",
            "the same under U: each of the 64 trains stands over four sections of its ring",
            &["read", "write", "verdict", "key"],
            long_rings(),
        ),
        Station::new(
            "open-chain",
            "a chain of 512 sections with twelve open signals, a train at each end",
            &["settings", "key"],
            chain(&open_places()),
        ),
        Station::new(
            "open-rings",
            "64 trains in rings, joined by twelve open turnouts; 13 settings are safe",
            &["settings", "key"],
            rings(Open::Joining),
        ),
        Station::new("all-safe", "64 trains in rings, twelve open turnouts inside them", &["settings"], rings(Open::Inside)),
        Station::new(
            "none-safe",
            "the same, but both legs of the last turnout lead to other trains",
            &["settings", "can_be_safe"],
            rings(Open::InsideButLast),
        ),
        Station::new(
            "open-points",
            "64 trains in rings, joined by six open turnouts, each with an open signal over one leg",
            &["settings", "key"],
            rings(Open::Points),
        ),
        Station::new(
            "one-section",
            "a chain of 512 sections with twelve open signals, two trains in its first section",
            &["settings", "key"],
            one_section(),
        ),
        Station::new(
            "hub",
            "eleven open turnouts with a train on each leg, and a last train that the twelfth leads to all of them: each setting fails at that train alone",
            &["settings", "can_be_safe", "key"],
            hub(),
        ),
        Station::new(
            "last-decides",
            "64 trains in rings, twelve open turnouts inside them, but the diverted leg of the last leads to another train",
            &["settings", "can_be_safe", "key"],
            rings(Open::InsideUnlessLastDiverted),
        ),
        Station::new(
            "kept-apart",
            "twelve open turnouts with a train on each leg, which they keep apart in either state: all settings are safe",
            &["settings", "can_be_safe", "key"],
            kept_apart(),
        ),
        Station {
            name: "roaming",
            about: "twelve open turnouts in a dense net of 48 sections, on which one train roams; found by a search for what 256 settings at a time cost most",
            file: include_bytes!("../stations/roaming.txt").to_vec(),
            marks: vec![],
            operations: &["settings", "can_be_safe", "key"],
        },
        Station {
            name: "ways-back",
            about: "twelve open turnouts in a dense net of 48 sections, from which nearly all their moves lead back",
            file: include_bytes!("../stations/ways-back.txt").to_vec(),
            marks: vec![],
            operations: &["settings", "can_be_safe", "key"],
        },
        Station::new(
            "save-first",
            "64 trains in rings, twelve open turnouts inside them, 200 open signals; the first setting is safe",
            &["can_be_safe"],
            with_signals(rings(Open::Inside)),
        ),
        Station::new(
            "save-last",
            "the same, but each straight leg leads to another train; the last setting alone is safe",
            &["can_be_safe"],
            with_signals(rings(Open::InsideIfDiverted)),
        ),
        Station::new(
            "save-none",
            "the same as save-first, but both legs of the last turnout lead to other trains; all 4,096 are tried",
            &["can_be_safe"],
            with_signals(rings(Open::InsideButLast)),
        ),
        Station {
            name: "log",
            about: "no station: a log of 1,000 answers in no order",
            file: answers::log(),
            marks: vec![],
            operations: &["standing"],
        },
        Station {
            name: "different",
            about: "no station: 999 mark records, each of another candidate, in no order",
            file: vec![],
            marks: report::list(true),
            operations: &["report"],
        },
        Station {
            name: "same",
            about: "no station: 999 mark records of one candidate",
            file: vec![],
            marks: report::list(false),
            operations: &["report"],
        },
    ]
}

/// All five bytes of each filled field are digits.
fn padded(mut station: Station) -> Station {
    for line in station.file.chunks_mut(law::LINE) {
        for field in line[1..law::LINE - 1].chunks_mut(5).filter(|field| field[4] != b' ') {
            field.iter_mut().filter(|byte| **byte == b' ').for_each(|byte| *byte = b'0');
        }
    }
    station
}

/// The section numbers in an order without sense, 1 at the end.
fn scrambled(sections: u32) -> Vec<u32> {
    let mut order: Vec<u32> = (2..=sections).collect();
    Random::new(1).shuffle(&mut order);
    order.push(1);
    order
}

fn largest() -> Draft {
    let order = scrambled(512);
    let (net, alone) = order.split_at(450);
    let mut random = Random::new(2);
    let mut draft = Draft::new(512);
    while draft.elements() < 256 {
        let (stem, straight, diverted) = (random.pick(net), random.pick(net), random.pick(net));
        draft.turnout(stem, straight, diverted, random.between(1, 2));
    }
    while draft.plain_lines() < 1024 {
        draft.plain(random.pick(net), random.pick(net));
    }
    for &section in alone {
        draft.train(section);
    }
    draft.train(net[0]);
    draft.train(net[1]);
    draft
}

/// The steps of the chain that have an open signal.
fn open_places() -> Vec<usize> {
    (1..=12).map(|place| place * 39).collect()
}

/// A chain with plain moves in both directions; at the open places, one open signal in the way of the first train.
fn chain(open: &[usize]) -> Draft {
    let order = scrambled(512);
    let mut draft = tracks(&order, open);
    draft.train(order[0]);
    draft.train(if open.is_empty() { order[1] } else { order[511] });
    draft
}

/// The chain with the open signals, and both trains at its start.
fn one_section() -> Draft {
    let order = scrambled(512);
    let mut draft = tracks(&order, &open_places());
    draft.train(order[0]);
    draft.train(order[0]);
    draft
}

fn tracks(order: &[u32], open: &[usize]) -> Draft {
    let mut draft = Draft::new(512);
    for (place, step) in order.windows(2).enumerate() {
        if open.contains(&place) {
            draft.signal(step[0], step[1], 0);
        } else {
            draft.plain(step[0], step[1]);
            draft.plain(step[1], step[0]);
        }
    }
    draft
}

#[derive(Clone, Copy, PartialEq, Eq)]
enum Open {
    /// No open element.
    None,
    /// Turnouts from twelve rings to sections outside: the straight leg of one leads where the diverted leg of the one before does.
    Joining,
    /// Six such turnouts, and a signal over the straight leg of each: every other one stands before its turnout.
    Points,
    /// Turnouts inside the last twelve rings.
    Inside,
    /// The same, but both legs of the last turnout lie in other rings.
    InsideButLast,
    /// The same as inside, but the straight leg of each turnout lies in the ring before.
    InsideIfDiverted,
    /// The same as inside, but the diverted leg of the last turnout lies in the ring before.
    InsideUnlessLastDiverted,
}

/// 64 rings with plain moves in both directions, a train in each.
fn rings(open: Open) -> Draft {
    let size = if matches!(open, Open::Joining | Open::Points) { 7 } else { 8 };
    let order = scrambled(512);
    let rings: Vec<&[u32]> = order.chunks_exact(size).take(64).collect();
    let mut draft = Draft::new(512);
    for ring in &rings {
        for place in 0..size {
            draft.plain(ring[place], ring[(place + 1) % size]);
            draft.plain(ring[(place + 1) % size], ring[place]);
        }
        if open == Open::None {
            for place in 0..4 {
                draft.signal(ring[place], ring[place + 3], 1);
            }
        }
    }
    for place in 0..12 {
        let ring = rings[52 + place];
        match open {
            Open::None => {}
            Open::Joining => draft.turnout(ring[0], order[64 * size + place], order[64 * size + place + 1], 0),
            Open::Points if place >= 6 => {}
            Open::Points => {
                let leg = order[64 * size + place];
                if place % 2 == 0 {
                    draft.signal(ring[0], leg, 0);
                }
                draft.turnout(ring[0], leg, order[64 * size + place + 1], 0);
                draft.signal(ring[0], leg, 0);
            }
            Open::InsideButLast if place == 11 => draft.turnout(ring[0], rings[62][3], rings[61][3], 0),
            Open::InsideIfDiverted => draft.turnout(ring[0], rings[51 + place][3], ring[5], 0),
            Open::InsideUnlessLastDiverted if place == 11 => draft.turnout(ring[0], ring[3], rings[62][3], 0),
            Open::Inside | Open::InsideButLast | Open::InsideUnlessLastDiverted => draft.turnout(ring[0], ring[3], ring[5], 0),
        }
    }
    for ring in &rings {
        draft.train(ring[0]);
    }
    draft
}

/// Open turnouts of three sections each, with a train on each leg.
fn turnouts_between_trains(draft: &mut Draft, sections: &[u32]) {
    for turnout in sections.chunks_exact(3) {
        draft.turnout(turnout[0], turnout[1], turnout[2], 0);
        draft.train(turnout[1]);
        draft.train(turnout[2]);
    }
}

fn kept_apart() -> Draft {
    let order = scrambled(512);
    let mut draft = Draft::new(512);
    turnouts_between_trains(&mut draft, &order[..36]);
    draft
}

/// Eleven turnouts between two trains each, and plain moves from both legs of a last one to all these trains.
fn hub() -> Draft {
    let order = scrambled(512);
    let (eleven, others) = order.split_at(33);
    let mut draft = Draft::new(512);
    turnouts_between_trains(&mut draft, eleven);
    draft.turnout(others[0], others[1], others[2], 0);
    draft.train(others[0]);
    for turnout in eleven.chunks_exact(3) {
        for leg in &turnout[1..] {
            draft.plain(others[1], *leg);
            draft.plain(others[2], *leg);
        }
    }
    draft
}

/// The 64 rings with a train over four sections in each.
fn long_rings() -> Draft {
    let order = scrambled(512);
    let mut draft = rings(Open::None).without_trains();
    for ring in order.chunks_exact(8) {
        draft.long_train(&ring[..4]);
    }
    draft
}

/// The station with 200 open signals between any sections.
fn with_signals(mut draft: Draft) -> Draft {
    let mut random = Random::new(3);
    let elements = draft.elements() + 200;
    while draft.elements() < elements {
        draft.signal(random.between(1, 512), random.between(1, 512), 0);
    }
    draft
}

#[cfg(test)]
mod checks {
    use super::*;
    use crate::fast::{self, Fast};
    use judge::ffi::{Refusal, YesNo};
    use oracle::compare::{Tally, compare};
    use oracle::law::{Reply, answer, read, settings, verdict};

    fn station(name: &str) -> law::Situation {
        let station = stations().into_iter().find(|station| station.name == name).unwrap();
        read(&station.file).unwrap()
    }

    #[test]
    fn stations_are_what_they_are_called() {
        let largest = station("largest");
        assert_eq!(law::write(&largest, usize::MAX).unwrap().len(), law::MOST_BYTES);
        let judged = verdict(&largest).named.unwrap();
        assert_eq!((judged.first, judged.second), (63, 64));
        let mut lists = [[0; 512]; 2];
        let [first, second] = &mut lists;
        let file = law::write(&station("chain"), usize::MAX).unwrap();
        let given = fast::verdict(&file, first, second);
        assert_eq!((given.first_length, given.second_length, given.meeting), (512, 511, 1));
        assert_eq!(verdict(&station("rings")).named, None);
        let long = station("long-rings");
        assert!(long.header.long && long.trains.len() == 64 && long.trains.iter().all(|train| train.len() == 4));
        assert_eq!(verdict(&long), verdict(&station("rings")));
    }

    #[test]
    fn numbers_of_safe_settings() {
        for (name, safe, proceed) in [
            ("open-chain", 4095, 11),
            ("open-rings", 13, 0),
            ("all-safe", 4096, 0),
            ("none-safe", 0, 0),
            ("open-points", 448, 6),
            ("one-section", 0, 0),
            ("hub", 0, 0),
            ("last-decides", 2048, 0),
            ("kept-apart", 4096, 0),
            ("roaming", 0, 0),
            ("ways-back", 0, 0),
        ] {
            let mut buffer = [0; 256];
            let file = law::write(&station(name), usize::MAX).unwrap();
            let given = fast::settings(&file, &mut buffer);
            assert_eq!((given.safe, given.proceed), (safe, proceed), "{name}");
        }
    }

    /// Its first trains are safe in every setting, and in the first and the last one they are met by its last train.
    #[test]
    fn the_hub_fails_at_its_last_train() {
        let hub = station("hub");
        for set in [1, 2] {
            let mut fixed = hub.clone();
            for element in &mut fixed.elements {
                let (law::Element::Signal { state, .. } | law::Element::Turnout { state, .. }) = element;
                *state = set;
            }
            assert_eq!(verdict(&fixed).named.unwrap().second, hub.trains.len());
        }
        let mut without = hub;
        without.trains.pop();
        without.header.trains -= 1;
        let file = law::write(&without, usize::MAX).unwrap();
        assert_eq!(fast::settings(&file, &mut [0; 256]).safe, 4096);
    }

    #[test]
    fn what_can_be_saved() {
        for (name, yes) in [
            ("none-safe", 0),
            ("hub", 0),
            ("last-decides", 1),
            ("kept-apart", 1),
            ("roaming", 0),
            ("ways-back", 0),
            ("save-first", 1),
            ("save-last", 1),
            ("save-none", 0),
        ] {
            let file = law::write(&station(name), usize::MAX).unwrap();
            let given = fast::can_be_safe(&file);
            assert_eq!(given, YesNo { refusal: Refusal::NONE, yes }, "{name}");
        }
        // Of each, which turnout settings are safe with the signals at stop.
        for (name, first, last) in [("save-first", true, true), ("save-last", false, true), ("save-none", false, false)] {
            let station = station(name);
            let at = |x: u32| -> Vec<u32> {
                station.elements.iter().map(|element| if matches!(element, law::Element::Turnout { .. }) { x } else { 2 }).collect()
            };
            let safe = |state| law::is_safe(&station, &law::over(&station), &at(state));
            assert_eq!((safe(1), safe(2)), (first, last), "{name}");
        }
    }

    /// Slow: the oracle judges 4,096 settings of each station from scratch. `cargo test --release -- --ignored` runs it.
    #[test]
    #[ignore]
    fn the_fast_program_agrees_with_the_oracle_on_all_stations() {
        for station in stations() {
            let mut tally = Tally::default();
            assert_eq!(compare(&Fast, &station.file, 0, &mut tally), Ok(()), "{}", station.name);
        }
        let Reply { safe, .. } = settings(&station("open-rings"));
        assert_eq!(safe, 13);
        assert!(matches!(answer(&Ok(station("rings"))), law::Answer::Judged(_)));
    }
}
