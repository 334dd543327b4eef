//! Can it be saved at all? (02, Item 6): the request in plain Rust, and the comparison of the library with it. Stations with few open elements have all
//! their settings tried; those with many open signals are made so that the answer is known. The settings question is asked beside it wherever it
//! replies.

use judge::ffi::{self, Refusal, YesNo};
use oracle::generate::{self, stations::Draft};
use oracle::law::{self, Element, Situation};
use oracle::random::Random;

/// So many of the generated files, small stations with most elements open, and stations with many open signals.
const FILES: u64 = 6_000;
const SMALL: u64 = 6_000;
const MANY: u64 = 1_500;
/// All settings are tried of a station where their number times that of the sections is at most this.
const MOST_TRIED: usize = 1 << 14;

/// "Refusal 11 here means thirteen or more open turnouts, with the line of the thirteenth", after the file's own refusals.
fn refusal(read: &Result<Situation, Refusal>) -> Option<Refusal> {
    let situation = match read {
        Err(refusal) => return Some(*refusal),
        Ok(situation) => situation,
    };
    let mut turnouts = 0;
    for (place, element) in situation.elements.iter().enumerate() {
        if matches!(element, Element::Turnout { state: 0, .. }) {
            turnouts += 1;
            if turnouts == 13 {
                return Some(law::refusal(11, 1 + situation.plain.len() + place + 1));
            }
        }
    }
    None
}

/// How many of all the settings of all the open elements are safe.
fn safe_settings(situation: &Situation) -> usize {
    let over = law::over(situation);
    law::all_settings(situation).iter().filter(|setting| law::is_safe(situation, &over, setting)).count()
}

fn open(situation: &Situation) -> usize {
    situation.elements.iter().filter(|element| element.is_open()).count()
}

/// What came up.
#[derive(Default, Debug)]
struct Seen {
    compared: u64,
    yes: u64,
    no: u64,
    refused: u64,
    /// Safe settings there are, but not with the turnouts in their first one, or only with them in their last.
    not_first: u64,
    only_last: u64,
    beside_settings: u64,
}

impl Seen {
    /// The answer has to be `wanted`, if that is known, and to agree with the settings question.
    fn check(&mut self, file: &[u8], wanted: Option<YesNo>) -> Result<(), String> {
        let given = ffi::can_be_safe(file);
        if let Some(wanted) = wanted
            && given != wanted
        {
            return Err(format!("{given:?} in place of {wanted:?}"));
        }
        let settings = ffi::settings(file, &mut [0; 256]);
        if settings.refusal.number == 0 {
            self.beside_settings += 1;
            if given.refusal.number != 0 || (given.yes == 1) != (settings.safe != 0) {
                return Err(format!("{given:?} beside {settings:?}"));
            }
        }
        match (given.refusal.number, given.yes) {
            (0, 1) => self.yes += 1,
            (0, _) => self.no += 1,
            (11, _) => self.refused += 1,
            _ => {}
        }
        self.compared += 1;
        Ok(())
    }

    /// The answer of a station all of whose settings are tried, or of any bytes.
    fn check_tried(&mut self, file: &[u8]) -> Result<(), String> {
        let read = law::read(file);
        let wanted = match (refusal(&read), &read) {
            (Some(refusal), _) => Some(YesNo { refusal, yes: 0 }),
            (None, Ok(situation)) if (situation.header.sections as usize) << open(situation).min(32) <= MOST_TRIED => {
                let safe = safe_settings(situation);
                self.note_turnouts(situation, safe);
                Some(YesNo { refusal: Refusal::NONE, yes: u16::from(safe > 0) })
            }
            _ => None,
        };
        self.check(file, wanted)
    }

    /// Whether the turnouts had to be tried one setting after the other.
    fn note_turnouts(&mut self, situation: &Situation, safe: usize) {
        let stopped = with(situation, |element| matches!(element, Element::Signal { .. }).then_some(2));
        if safe == 0 || open(&stopped) == 0 {
            return;
        }
        let settings = law::all_settings(&stopped);
        let over = law::over(&stopped);
        let first = settings.iter().position(|setting| law::is_safe(&stopped, &over, setting));
        self.not_first += u64::from(first != Some(0));
        self.only_last += u64::from(first == Some(settings.len() - 1));
    }
}

/// The station with some of its open elements set.
fn with(situation: &Situation, set: impl Fn(&Element) -> Option<u32>) -> Situation {
    let mut other = situation.clone();
    for element in &mut other.elements {
        if let Some(now) = set(element).filter(|_| element.is_open()) {
            match element {
                Element::Signal { state, .. } | Element::Turnout { state, .. } => *state = now,
            }
        }
    }
    other
}

/// A small station, most of whose elements are open.
fn small(random: &mut Random) -> Draft {
    let sections = random.between(2, 9);
    let mut draft = Draft::new(sections);
    let any = |random: &mut Random| random.between(1, sections);
    for _ in 0..random.between(1, 9) {
        let (a, b, c) = (any(random), any(random), any(random));
        let state = if random.once_in(6) { random.between(1, 2) } else { 0 };
        if random.once_in(3) { draft.signal(a, b, state) } else { draft.turnout(a, b, c, state) }
    }
    for _ in 0..random.between(0, 3) {
        draft.plain(any(random), any(random));
    }
    for _ in 0..random.between(1, 4) {
        draft.train(any(random));
    }
    draft
}

/// Rows of sections, each step under an open signal, with a train in the first section of each row, and open signals from row to row besides, up to 256.
/// From some first sections leads a turnout, open or fixed: one of its legs has another train in it, so it is safe in one state alone. Also the
/// answer: with all signals at stop only the turnouts matter, so it is no where one of them is fixed the wrong way or two trains stand in one section.
fn many(random: &mut Random) -> (Situation, bool) {
    let turnouts = random.pick(&[0, 0, 1, 3, 6, 11, 12, 12, 13, 14, 20]);
    let length = random.between(2, 12);
    let rows = random.between(turnouts.max(1), ((256 - turnouts) / (length - 1)).min(24));
    let sections = rows * (length + 2);
    let mut draft = Draft::new(sections);
    let mut saved = true;
    let mut made = 0;
    let mut trains = vec![];
    let mut legs = vec![];
    for row in 0..rows {
        let first = row * (length + 2) + 1;
        for step in 0..length - 1 {
            draft.signal(first + step, first + step + 1, 0);
        }
        trains.push(first);
        if made < turnouts && (random.once_in(2) || rows - row == turnouts - made) {
            made += 1;
            let (other, free) = (first + length, first + length + 1);
            let straight = random.once_in(2);
            let state = if random.once_in(8) { random.between(1, 2) } else { 0 };
            if straight {
                draft.turnout(first, free, other, state)
            } else {
                draft.turnout(first, other, free, state)
            }
            saved &= state == 0 || (state == 1) == straight;
            legs.extend([[first, other], [other, first], [first, free], [free, first]]);
            trains.push(other);
        }
    }
    if random.once_in(2) {
        // None over a leg, where a signal at stop could save what the turnout does not.
        for _ in 0..1_000 {
            let pair = [random.between(1, sections), random.between(1, sections)];
            if !legs.contains(&pair) {
                draft.signal(pair[0], pair[1], 0);
            }
        }
    }
    random.shuffle(&mut trains);
    if random.once_in(4) {
        trains.push(trains[0]);
        saved = false;
    }
    for section in trains {
        draft.train(section);
    }
    (draft.situation(), saved)
}

/// How many answers were compared, or the first that differs.
pub fn compare() -> Result<u64, String> {
    let mut seen = Seen::default();
    for index in 0..FILES {
        let file = generate::case(index).file;
        seen.check_tried(&file).map_err(|difference| format!("file {index}, can it be saved: {difference}"))?;
    }
    let mut most_signals = 0;
    for seed in 0..SMALL {
        let random = &mut Random::new(seed ^ 0x7361_7665);
        let file = law::write(&small(random).situation(), usize::MAX).map_err(|refusal| format!("small station {seed}: {refusal:?}"))?;
        seen.check_tried(&file).map_err(|difference| format!("small station {seed}, can it be saved: {difference}"))?;
    }
    for seed in 0..MANY {
        let random = &mut Random::new(seed ^ 0x6d61_6e79);
        let (situation, saved) = many(random);
        let file = law::write(&situation, usize::MAX).map_err(|refusal| format!("many signals {seed}: {refusal:?}"))?;
        let wanted = match refusal(&Ok(situation.clone())) {
            Some(refusal) => YesNo { refusal, yes: 0 },
            None => YesNo { refusal: Refusal::NONE, yes: u16::from(saved) },
        };
        seen.check(&file, Some(wanted)).map_err(|difference| format!("many signals {seed}, can it be saved: {difference}"))?;
        most_signals =
            most_signals.max(situation.elements.iter().filter(|element| matches!(element, Element::Signal { state: 0, .. })).count());
    }
    println!(
        "can it be saved: {} yes ({} not with the first turnout setting, {} with the last alone), {} no, {} refused with 11; {} beside the settings question; up to {most_signals} open signals",
        seen.yes, seen.not_first, seen.only_last, seen.no, seen.refused, seen.beside_settings
    );
    if [seen.yes, seen.no, seen.refused, seen.not_first, seen.only_last, seen.beside_settings].contains(&0) || most_signals < 256 {
        return Err("can it be saved: an outcome did not come up".to_string());
    }
    Ok(seen.compared)
}
