//! A situation as a value, its way to and from the C struct, and the reader and the writer.

use std::borrow::Cow;
use std::fmt;
use std::str::FromStr;

use crate::{Cause, LINE_SIZE, MAX_ELEMENTS, MAX_FILE, MAX_PLAIN, MAX_STANDING, MAX_TRAINS, Refusal, Section, State, ffi};

/// The letter that a station file begins with.
#[derive(Clone, Copy, Debug, Default, PartialEq, Eq, PartialOrd, Ord, Hash)]
pub enum Letter {
    /// Each train is in one section.
    #[default]
    S,
    /// A train stands over one to four sections.
    U,
}

/// The letter, as the file has it.
impl fmt::Display for Letter {
    fn fmt(&self, f: &mut fmt::Formatter<'_>) -> fmt::Result {
        f.pad(match self {
            Letter::S => "S",
            Letter::U => "U",
        })
    }
}

/// An element with its state: an L or a D line of the file.
#[derive(Clone, Copy, Debug, PartialEq, Eq, PartialOrd, Ord, Hash)]
pub enum ElementLine {
    /// A signal over the ordered pair (from, to).
    Signal {
        /// Where the move starts.
        from: Section,
        /// Where it ends.
        to: Section,
        /// Proceed or stop, or open.
        state: State,
    },
    /// A turnout between its stem and its two legs, both ways.
    Turnout {
        /// What both legs join.
        stem: Section,
        /// Joined to the stem at [`State::One`].
        straight: Section,
        /// Joined to the stem at [`State::Two`].
        diverted: Section,
        /// Straight or diverted, or open.
        state: State,
    },
}

impl ElementLine {
    /// Returns the element's state.
    #[must_use]
    pub const fn state(&self) -> State {
        match *self {
            ElementLine::Signal { state, .. } | ElementLine::Turnout { state, .. } => state,
        }
    }

    /// Returns the element's state, to be changed.
    #[must_use]
    pub const fn state_mut(&mut self) -> &mut State {
        match self {
            ElementLine::Signal { state, .. } | ElementLine::Turnout { state, .. } => state,
        }
    }

    /// Returns the element's state in words: `"open"`, of a signal `"proceed"` or `"stop"`, of a turnout `"straight"` or `"diverted"`.
    #[must_use]
    pub const fn state_word(&self) -> &'static str {
        match *self {
            ElementLine::Signal { state, .. } => state.of_signal(),
            ElementLine::Turnout { state, .. } => state.of_turnout(),
        }
    }

    /// Says whether the element is a turnout.
    #[must_use]
    pub const fn is_turnout(&self) -> bool {
        matches!(self, ElementLine::Turnout { .. })
    }
}

/// A situation of a station: what a station file holds.
///
/// [`read`] gives it and [`write()`] takes it; whether a value is one that a file can hold, the writer says. As values a situation is compared, kept
/// and changed like any other, and the questions are asked of it as of a file's bytes:
///
/// ```
/// # let file = include_bytes!("../../stations/K.txt");
/// let mut situation = judge::read(file)?;
/// assert_eq!(situation.elements[3].state_word(), "proceed");
/// assert!(judge::owned::verdict(&situation)?.is_dangerous());
///
/// *situation.elements[3].state_mut() = judge::State::Two;
/// assert_eq!(judge::to_bytes(&situation)?, include_bytes!("../../stations/K2.txt"));
/// assert!(!judge::owned::verdict(&situation)?.is_dangerous());
/// # Ok::<(), judge::Refusal>(())
/// ```
#[derive(Clone, Debug, Default, PartialEq, Eq, Hash)]
pub struct Situation {
    /// The letter in front.
    pub letter: Letter,
    /// How many sections the station has: 1 to 512.
    pub sections: u16,
    /// The P lines, from and to: at most 1,024.
    pub plain: Vec<(Section, Section)>,
    /// The elements, by number: at most 256.
    pub elements: Vec<ElementLine>,
    /// The sections of each train, by number: at most 64 trains, each in one section, in a U file in one to four.
    pub trains: Vec<Vec<Section>>,
}

impl Situation {
    /// Returns how many bytes the file of this situation has: 22 a line.
    #[must_use]
    pub fn file_size(&self) -> usize {
        LINE_SIZE * (1 + self.plain.len() + self.elements.len() + self.trains.len())
    }

    /// Returns the numbers of the open elements.
    pub fn open_elements(&self) -> impl Iterator<Item = crate::Element> + '_ {
        self.elements.iter().enumerate().filter(|(_, line)| line.state().is_open()).filter_map(|(place, _)| crate::Element::at(place))
    }
}

/// What is asked as a station file: bytes, whether or not they are one, or a [`Situation`], which is written first.
pub trait StationFile {
    /// Returns the bytes of the file.
    ///
    /// # Errors
    ///
    /// The refusals of [`to_bytes`], for a [`Situation`] that no file can hold. Bytes are not refused.
    fn file_bytes(&self) -> Result<Cow<'_, [u8]>, Refusal>;
}

impl<Bytes: AsRef<[u8]> + ?Sized> StationFile for Bytes {
    fn file_bytes(&self) -> Result<Cow<'_, [u8]>, Refusal> {
        Ok(Cow::Borrowed(self.as_ref()))
    }
}

impl StationFile for Situation {
    fn file_bytes(&self) -> Result<Cow<'_, [u8]>, Refusal> {
        to_bytes(self).map(Cow::Owned)
    }
}

/// What [`read`] gives.
impl TryFrom<&[u8]> for Situation {
    type Error = Refusal;

    fn try_from(file: &[u8]) -> Result<Situation, Refusal> {
        read(file)
    }
}

/// What [`read`] gives.
///
/// ```
/// use judge::{Letter, Situation};
///
/// let situation: Situation = "S    3    0    0    0\n".parse()?;
/// assert_eq!(situation, Situation { letter: Letter::S, sections: 3, ..Situation::default() });
/// # Ok::<(), judge::Refusal>(())
/// ```
impl FromStr for Situation {
    type Err = Refusal;

    fn from_str(file: &str) -> Result<Situation, Refusal> {
        read(file.as_bytes())
    }
}

/// The text of the file, as [`write()`] writes it; where that refuses the situation, the R line of the refusal, as the programs print it.
///
/// ```
/// use judge::{Section, Situation};
///
/// let mut situation = Situation { sections: 3, trains: vec![vec![Section(3)]], ..Situation::default() };
/// assert_eq!(situation.to_string(), "S    3    0    0    1\nT    3               \n");
///
/// situation.sections = 2;
/// assert_eq!(situation.to_string(), "R    5    2          \n");
/// ```
impl fmt::Display for Situation {
    fn fmt(&self, f: &mut fmt::Formatter<'_>) -> fmt::Result {
        match to_bytes(self) {
            Ok(file) => f.write_str(&String::from_utf8_lossy(&file)),
            Err(refusal) => writeln!(f, "R{:>5}{:>5}{:>10}", refusal.number(), refusal.line(), ""),
        }
    }
}

/// Every situation has such a form. One with more lines or sections of a train than the arrays hold keeps its counts, as far as they can be
/// said, and loses the rest: [`write()`] refuses it by its counts alone.
impl From<&Situation> for ffi::Situation {
    fn from(situation: &Situation) -> ffi::Situation {
        let count = |length: usize| u16::try_from(length).unwrap_or(u16::MAX);
        let mut raw = ffi::Situation {
            sections: situation.sections,
            plain: count(situation.plain.len()),
            elements: count(situation.elements.len()),
            trains: count(situation.trains.len()),
            is_long: u8::from(situation.letter == Letter::U),
            ..ffi::Situation::ZEROS
        };
        for (place, &(from, to)) in situation.plain.iter().enumerate().take(MAX_PLAIN) {
            raw.plain_from[place] = from.get();
            raw.plain_to[place] = to.get();
        }
        for (place, line) in situation.elements.iter().enumerate().take(MAX_ELEMENTS) {
            let (first, second, third) = match *line {
                ElementLine::Signal { from, to, .. } => (from, to, Section(0)),
                ElementLine::Turnout { stem, straight, diverted, .. } => (stem, straight, diverted),
            };
            raw.is_turnout[place] = u8::from(line.is_turnout());
            raw.element_first[place] = first.get();
            raw.element_second[place] = second.get();
            raw.element_third[place] = third.get();
            raw.element_state[place] = line.state().get();
        }
        let standing = raw.train_section.chunks_exact_mut(MAX_STANDING);
        for ((sections, size), chunk) in situation.trains.iter().zip(&mut raw.train_size).zip(standing) {
            *size = u8::try_from(sections.len()).unwrap_or(u8::MAX);
            for (number, section) in chunk.iter_mut().zip(sections) {
                *number = section.get();
            }
        }
        raw
    }
}

/// What a [`Situation`] cannot hold is refused with the number and line that the writer has for it: a count above its array with 3, a state above
/// 2 with 6, a train of more than four sections with 2. No other cause is looked for.
impl TryFrom<&ffi::Situation> for Situation {
    type Error = Refusal;

    fn try_from(raw: &ffi::Situation) -> Result<Situation, Refusal> {
        let (plain, elements, trains) = (usize::from(raw.plain), usize::from(raw.elements), usize::from(raw.trains));
        if plain > MAX_PLAIN || elements > MAX_ELEMENTS || trains > MAX_TRAINS {
            return Err(Refusal::new(Cause::HeaderRange, 1));
        }
        // Lines are counted from 1, after the first; no count is above its array, so the number fits.
        let refused = |cause: Cause, earlier: usize| Refusal::new(cause, earlier as u16 + 2);
        let element = |place: usize| {
            let (first, second) = (Section(raw.element_first[place]), Section(raw.element_second[place]));
            let state = State::new(raw.element_state[place]).ok_or(refused(Cause::StateRange, plain + place))?;
            Ok(match raw.is_turnout[place] {
                0 => ElementLine::Signal { from: first, to: second, state },
                _ => ElementLine::Turnout { stem: first, straight: second, diverted: Section(raw.element_third[place]), state },
            })
        };
        let train = |place: usize| {
            let size = usize::from(raw.train_size[place]);
            let standing = &raw.train_section[MAX_STANDING * place..][..MAX_STANDING];
            let sections = standing.get(..size).ok_or(refused(Cause::LineForm, plain + elements + place))?;
            Ok(sections.iter().copied().map(Section).collect())
        };
        Ok(Situation {
            letter: if raw.is_long == 0 { Letter::S } else { Letter::U },
            sections: raw.sections,
            plain: raw.plain_from.iter().zip(&raw.plain_to).take(plain).map(|(&from, &to)| (Section(from), Section(to))).collect(),
            elements: (0..elements).map(element).collect::<Result<_, Refusal>>()?,
            trains: (0..trains).map(train).collect::<Result<_, Refusal>>()?,
        })
    }
}

/// Reads a station file.
///
/// # Errors
///
/// Refusals 1 to 8.
///
/// # Examples
///
/// ```
/// use judge::{Letter, Section};
///
/// # let file = include_bytes!("../../stations/K.txt");
/// let situation = judge::read(file)?;
/// assert_eq!(situation.letter, Letter::S);
/// assert_eq!(situation.sections, 5);
/// assert_eq!(situation.plain, [(Section(2), Section(1))]);
/// assert_eq!(situation.trains, [[Section(1)], [Section(4)]]);
/// # Ok::<(), judge::Refusal>(())
/// ```
pub fn read(file: &[u8]) -> Result<Situation, Refusal> {
    let reading = ffi::read(file);
    reading.refusal.result()?;
    Situation::try_from(&reading.situation)
}

/// How much [`write_counted`] or [`key_counted`](crate::key_counted) wrote at the start of a buffer.
#[derive(Clone, Copy, Debug, Default, PartialEq, Eq, Hash)]
pub struct Output {
    /// How many bytes were written.
    pub length: usize,
    /// How many subtractions their digits took: the sum of all digits among them.
    pub subtractions: u32,
}

impl From<ffi::Output> for Result<Output, Refusal> {
    fn from(answer: ffi::Output) -> Result<Output, Refusal> {
        answer.refusal.result()?;
        Ok(Output { length: answer.length, subtractions: answer.subtractions })
    }
}

/// Writes the file of a situation at the start of a buffer, and says how many bytes it has: 22 a line, [`Situation::file_size`]. The rest of the
/// buffer keeps its content.
///
/// # Errors
///
/// Refusals 3; then, line by line, 2, 5, 7, 6 and 8, with the line that would have been written; then 9. A refusal leaves the buffer unchanged.
///
/// # Examples
///
/// ```
/// # let file = include_bytes!("../../stations/K.txt");
/// let mut situation = judge::read(file)?;
/// let mut buffer = [b'-'; judge::MAX_FILE];
/// let size = judge::write(&situation, &mut buffer)?;
/// assert_eq!(&buffer[..size], file);
///
/// situation.trains.push(vec![judge::Section(6)]);
/// let mut buffer = [b'-'; judge::MAX_FILE];
/// let refusal = judge::write(&situation, &mut buffer).unwrap_err();
/// assert_eq!((refusal.number(), refusal.line()), (5, 9));
/// assert_eq!(buffer, [b'-'; judge::MAX_FILE]);
/// # Ok::<(), judge::Refusal>(())
/// ```
pub fn write(situation: &Situation, buffer: &mut [u8]) -> Result<usize, Refusal> {
    write_counted(situation, buffer).map(|output| output.length)
}

/// Does what [`write()`] does, and returns how many subtractions the digits took too.
///
/// ```
/// # let file = include_bytes!("../../stations/K.txt");
/// let situation = judge::read(file)?;
/// let mut buffer = [0; judge::MAX_FILE];
/// let output = judge::write_counted(&situation, &mut buffer)?;
/// let digits = buffer[..output.length].iter().filter_map(|&byte| char::from(byte).to_digit(10));
/// assert_eq!(output.subtractions, digits.sum::<u32>());
/// # Ok::<(), judge::Refusal>(())
/// ```
pub fn write_counted(situation: &Situation, buffer: &mut [u8]) -> Result<Output, Refusal> {
    ffi::write(&situation.into(), buffer).into()
}

/// Returns the file of a situation, as [`write()`] writes it.
///
/// # Errors
///
/// Refusals 3, 2, 5, 7, 6 and 8, as there.
pub fn to_bytes(situation: &Situation) -> Result<Vec<u8>, Refusal> {
    // More lines than a file can have are refused before any is written.
    let mut file = vec![0; situation.file_size().min(MAX_FILE)];
    write(situation, &mut file)?;
    Ok(file)
}
