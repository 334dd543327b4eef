//! What is shown of a situation that the library read: the line of each thing, the lines over an ordered pair, and all of it in words.

use judge::{ElementLine, Section, Situation, State};

/// A leg of a turnout.
#[derive(Clone, Copy, Debug, PartialEq, Eq)]
pub enum Leg {
    Straight,
    Diverted,
}

impl Leg {
    /// The state that joins this leg to the stem.
    pub fn state(self) -> State {
        match self {
            Leg::Straight => State::One,
            Leg::Diverted => State::Two,
        }
    }
}

/// The lines that stand over an ordered pair: the numbers of a P line, of a signal, and of a turnout with the leg. All numbers start at 1.
#[derive(Clone, Copy, Debug, Default, PartialEq, Eq)]
pub struct Over {
    pub plain: Option<usize>,
    pub signal: Option<usize>,
    pub turnout: Option<(usize, Leg)>,
}

impl Over {
    pub fn is_empty(&self) -> bool {
        *self == Over::default()
    }
}

/// A situation as it is shown: with the states of its file, or with those of a setting in their place.
#[derive(Clone, Debug, PartialEq, Eq)]
pub struct Station {
    /// As the file has it.
    pub filed: Situation,
    /// The state of each element that is shown.
    pub states: Vec<State>,
}

impl Station {
    /// With the file's own states.
    pub fn new(filed: Situation) -> Station {
        let states = filed.elements.iter().map(ElementLine::state).collect();
        Station { filed, states }
    }

    /// With the states of a setting.
    pub fn under(&self, setting: &[State]) -> Station {
        Station { filed: self.filed.clone(), states: setting.to_vec() }
    }

    /// The file with the states that are shown, as the library writes it.
    pub fn file(&self) -> Result<Vec<u8>, judge::Refusal> {
        let mut situation = self.filed.clone();
        for (element, &state) in situation.elements.iter_mut().zip(&self.states) {
            *element.state_mut() = state;
        }
        judge::to_bytes(&situation)
    }

    pub fn sections(&self) -> usize {
        usize::from(self.filed.sections)
    }

    /// Whether the station has a section.
    pub fn has(&self, section: Section) -> bool {
        (1..=self.sections()).contains(&usize::from(section.get()))
    }

    /// The elements with their numbers and the states that are shown.
    pub fn elements(&self) -> impl Iterator<Item = (usize, &ElementLine, State)> {
        self.filed.elements.iter().zip(&self.states).enumerate().map(|(place, (element, &state))| (place + 1, element, state))
    }

    /// The trains with their numbers.
    pub fn trains(&self) -> impl Iterator<Item = (usize, &[Section])> {
        self.filed.trains.iter().enumerate().map(|(place, sections)| (place + 1, sections.as_slice()))
    }

    /// The line of a P line, an element or a train by its number.
    pub fn plain_line(&self, number: usize) -> usize {
        1 + number
    }

    pub fn element_line(&self, number: usize) -> usize {
        1 + self.filed.plain.len() + number
    }

    pub fn train_line(&self, number: usize) -> usize {
        1 + self.filed.plain.len() + self.filed.elements.len() + number
    }

    /// Whether an element is open in the file.
    pub fn is_open(&self, number: usize) -> bool {
        self.filed.elements.get(number.wrapping_sub(1)).is_some_and(|element| element.state().is_open())
    }

    /// The numbers of the elements that are open in the file.
    pub fn open(&self) -> Vec<usize> {
        (1..=self.filed.elements.len()).filter(|&number| self.is_open(number)).collect()
    }

    /// The numbers of the elements that are fixed in the file.
    pub fn fixed(&self) -> Vec<usize> {
        (1..=self.filed.elements.len()).filter(|&number| !self.is_open(number)).collect()
    }

    pub fn turnouts(&self) -> usize {
        self.filed.elements.iter().filter(|element| element.is_turnout()).count()
    }

    pub fn signals(&self) -> usize {
        self.filed.elements.len() - self.turnouts()
    }

    /// What stands over an ordered pair.
    pub fn over(&self, from: Section, to: Section) -> Over {
        let plain = self.filed.plain.iter().position(|&pair| pair == (from, to)).map(|place| place + 1);
        let mut over = Over { plain, ..Over::default() };
        for (number, element, _) in self.elements() {
            match *element {
                ElementLine::Signal { from: a, to: b, .. } => {
                    if (a, b) == (from, to) {
                        over.signal = Some(number);
                    }
                }
                ElementLine::Turnout { stem, straight, diverted, .. } => {
                    let joins = |leg: Section| (from, to) == (stem, leg) || (from, to) == (leg, stem);
                    if joins(straight) {
                        over.turnout = Some((number, Leg::Straight));
                    } else if joins(diverted) {
                        over.turnout = Some((number, Leg::Diverted));
                    }
                }
            }
        }
        over
    }

    /// Whether the lines over an ordered pair permit the move in the states that are shown. It serves to say in words what an answer rests on.
    pub fn permits(&self, from: Section, to: Section) -> bool {
        self.permits_under(&self.over(from, to))
    }

    /// The same with the lines given.
    pub fn permits_under(&self, over: &Over) -> bool {
        let state = |number: usize| self.states.get(number - 1).copied().unwrap_or_default();
        let signal = over.signal.is_none_or(|number| state(number) == State::One);
        let turnout = over.turnout.is_none_or(|(number, leg)| state(number) == leg.state());
        !over.is_empty() && signal && turnout
    }

    /// A step in words, with the lines that stand over it and their states: "2 to 3: turnout 2, straight (line 4)".
    pub fn step(&self, from: Section, to: Section) -> String {
        self.step_under(from, to, &self.over(from, to))
    }

    /// The same with the lines that stand over it given.
    pub fn step_under(&self, from: Section, to: Section, over: &Over) -> String {
        let mut words = Vec::new();
        let mut lines = Vec::new();
        if let Some(number) = over.plain {
            words.push(String::from("P line"));
            lines.push(self.plain_line(number));
        }
        for number in over.signal.into_iter().chain(over.turnout.map(|(number, _)| number)) {
            words.push(self.element_words(number));
            lines.push(self.element_line(number));
        }
        if words.is_empty() {
            return format!("{from} to {to}: no line");
        }
        format!("{from} to {to}: {} ({})", words.join(", and "), lines_named(&lines))
    }

    /// An element with its state: "turnout 2, straight".
    pub fn element_words(&self, number: usize) -> String {
        self.element_in(number, self.states.get(number.wrapping_sub(1)).copied().unwrap_or_default())
    }

    /// An element in a state.
    pub fn element_in(&self, number: usize, state: State) -> String {
        match self.filed.elements.get(number.wrapping_sub(1)) {
            Some(element) => format!("{} {number}, {}", sort(element), word(element, state)),
            None => format!("element {number}"),
        }
    }

    /// Where a train stands: "train 1 in section 1", "train 2 over sections 3 and 4".
    pub fn train_words(&self, number: usize) -> String {
        match self.filed.trains.get(number.wrapping_sub(1)).map(Vec::as_slice) {
            Some(sections @ [_]) => format!("train {number} in {}", named("section", sections)),
            Some(sections) => format!("train {number} over {}", named("section", sections)),
            None => format!("train {number}"),
        }
    }

    /// "5 sections, 1 P line, 3 signals, 1 turnout, 2 trains"
    pub fn counts(&self) -> String {
        [
            counted(self.sections(), "section"),
            counted(self.filed.plain.len(), "P line"),
            counted(self.signals(), "signal"),
            counted(self.turnouts(), "turnout"),
            counted(self.filed.trains.len(), "train"),
        ]
        .join(", ")
    }
}

/// "signal" or "turnout".
pub fn sort(element: &ElementLine) -> &'static str {
    if element.is_turnout() { "turnout" } else { "signal" }
}

/// The word for a state of an element.
pub fn word(element: &ElementLine, state: State) -> &'static str {
    if element.is_turnout() { state.of_turnout() } else { state.of_signal() }
}

/// Where an element stands, in words.
pub fn place(element: &ElementLine) -> String {
    match element {
        ElementLine::Signal { from, to, .. } => format!("{from} to {to}"),
        ElementLine::Turnout { stem, straight, diverted, .. } => format!("{stem} to {straight} or {diverted}"),
    }
}

/// The other of 1 and 2; open stays open.
pub fn other(state: State) -> State {
    match state {
        State::Open => State::Open,
        State::One => State::Two,
        State::Two => State::One,
    }
}

/// A number with its noun: "1 train", "2 trains".
pub fn counted(number: usize, noun: &str) -> String {
    if number == 1 { format!("1 {noun}") } else { format!("{} {noun}s", grouped(number)) }
}

/// "1 setting is", "16 settings are"
pub fn counted_are(number: usize, noun: &str) -> String {
    format!("{} {}", counted(number, noun), if number == 1 { "is" } else { "are" })
}

/// A number with a comma between thousands.
pub fn grouped(number: usize) -> String {
    let digits = number.to_string();
    let mut text = String::new();
    for (place, digit) in digits.chars().enumerate() {
        if place > 0 && (digits.len() - place).is_multiple_of(3) {
            text.push(',');
        }
        text.push(digit);
    }
    text
}

/// Things in a row: "1", "1 and 2", "1, 2 and 3".
pub fn listed<T: ToString>(things: &[T]) -> String {
    let words: Vec<String> = things.iter().map(T::to_string).collect();
    match words.as_slice() {
        [] => String::from("none"),
        [one] => one.clone(),
        [rest @ .., last] => format!("{} and {last}", rest.join(", ")),
    }
}

/// The sections of a path: "1 2 3 5".
pub fn in_a_row(sections: &[Section]) -> String {
    sections.iter().map(ToString::to_string).collect::<Vec<_>>().join(" ")
}

/// "line 4", "lines 3 and 4"
pub fn lines_named(lines: &[usize]) -> String {
    if lines.len() == 1 { format!("line {}", lines[0]) } else { format!("lines {}", listed(lines)) }
}

/// Things with their noun: "train 1", "trains 1 and 2".
pub fn named<T: ToString>(noun: &str, things: &[T]) -> String {
    if things.len() == 1 { format!("{noun} {}", listed(things)) } else { format!("{noun}s {}", listed(things)) }
}

#[cfg(test)]
pub mod examples {
    use super::*;
    use judge::Letter;

    pub fn signal(from: u16, to: u16, state: State) -> ElementLine {
        ElementLine::Signal { from: Section(from), to: Section(to), state }
    }

    pub fn turnout(stem: u16, straight: u16, diverted: u16, state: State) -> ElementLine {
        ElementLine::Turnout { stem: Section(stem), straight: Section(straight), diverted: Section(diverted), state }
    }

    /// A station without trains.
    pub fn station_of(sections: u16, plain: &[(u16, u16)], elements: Vec<ElementLine>) -> Station {
        let plain = plain.iter().map(|&(from, to)| (Section(from), Section(to))).collect();
        Station::new(Situation { letter: Letter::S, sections, plain, elements, trains: vec![] })
    }

    /// P lines there and back.
    pub fn both_ways(pairs: &[(u16, u16)]) -> Vec<(u16, u16)> {
        pairs.iter().flat_map(|&(one, two)| [(one, two), (two, one)]).collect()
    }

    /// Station K of document 01.
    pub fn station_k() -> Station {
        Station::new(Situation {
            letter: Letter::S,
            sections: 5,
            plain: vec![(Section(2), Section(1))],
            elements: vec![signal(1, 2, State::One), turnout(2, 3, 4, State::One), signal(3, 5, State::One), signal(4, 5, State::One)],
            trains: vec![vec![Section(1)], vec![Section(4)]],
        })
    }
}

#[cfg(test)]
mod tests {
    use super::examples::*;
    use super::*;

    #[test]
    fn steps_name_their_lines() {
        let station = station_k();
        let step = |from, to| station.step(Section(from), Section(to));
        assert_eq!(step(2, 3), "2 to 3: turnout 2, straight (line 4)");
        assert_eq!(step(3, 2), "3 to 2: turnout 2, straight (line 4)");
        assert_eq!(step(2, 1), "2 to 1: P line (line 2)");
        assert_eq!(step(3, 5), "3 to 5: signal 3, proceed (line 5)");
        assert_eq!(step(5, 3), "5 to 3: no line");
    }

    #[test]
    fn a_signal_at_the_points_is_named_with_its_turnout() {
        let mut situation = station_k().filed;
        situation.elements.push(signal(2, 3, State::Two));
        let station = Station::new(situation);
        assert_eq!(station.step(Section(2), Section(3)), "2 to 3: signal 5, stop, and turnout 2, straight (lines 7 and 4)");
    }

    #[test]
    fn trains_stand_in_one_section_or_over_several() {
        let mut situation = station_k().filed;
        situation.trains.push(vec![Section(3), Section(5)]);
        let station = Station::new(situation);
        assert_eq!(station.train_words(1), "train 1 in section 1");
        assert_eq!(station.train_words(3), "train 3 over sections 3 and 5");
        assert_eq!(in_a_row(&station.filed.trains[2]), "3 5");
    }

    #[test]
    fn numbers_and_lists_in_words() {
        assert_eq!(grouped(1_234_567), "1,234,567");
        assert_eq!(grouped(999), "999");
        assert_eq!(counted(1, "train"), "1 train");
        assert_eq!(counted(4096, "setting"), "4,096 settings");
        assert_eq!(listed(&[1, 2, 3]), "1, 2 and 3");
        assert_eq!(listed::<usize>(&[]), "none");
        assert_eq!(named("train", &[1, 2]), "trains 1 and 2");
        assert_eq!(station_k().counts(), "5 sections, 1 P line, 3 signals, 1 turnout, 2 trains");
    }
}
