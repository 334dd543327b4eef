//! The judge's questions of a station file: verdict, settings, frames, drawings, and the key.

use crate::{MAX_ELEMENTS, Output, Refusal, Section, State, StationFile, Train, ffi, owned};

/// The two counts of a verdict, over trains 1 to the second one named, over all trains where it is safe.
#[derive(Clone, Copy, Debug, Default, PartialEq, Eq, Hash)]
pub struct Counts {
    /// The number of sections in the trains' reaches, added up.
    pub entries: u32,
    /// The number of permitted moves that leave a section of the reach, added up likewise.
    pub looks: u32,
}

/// The verdict on a situation: `Verdict` has its paths itself, and those of a `Verdict<&[Section]>` are parts of the lists that were lent to
/// [`verdict`].
#[derive(Clone, Copy, Debug, PartialEq, Eq, Hash)]
#[must_use]
pub enum Verdict<Path = Vec<Section>> {
    /// No two trains can reach one section.
    Safe {
        /// The two counts.
        counts: Counts,
    },
    /// Two trains can reach one section.
    Dangerous {
        /// The lower of the two trains.
        first: Train,
        /// The higher: the lowest train for which trains 1 up to it are already dangerous.
        second: Train,
        /// The lowest section in both reaches.
        meeting: Section,
        /// A path of the first train from a section of it to the meeting section.
        first_path: Path,
        /// A path of the second train from a section of it to the meeting section.
        second_path: Path,
        /// The two counts.
        counts: Counts,
    },
}

impl<Path> Verdict<Path> {
    /// Says whether two trains can reach one section.
    #[must_use]
    pub const fn is_dangerous(&self) -> bool {
        matches!(self, Verdict::Dangerous { .. })
    }

    /// Returns the two counts.
    #[must_use]
    pub const fn counts(&self) -> Counts {
        match *self {
            Verdict::Safe { counts } | Verdict::Dangerous { counts, .. } => counts,
        }
    }
}

impl<Path: Into<Vec<Section>>> Verdict<Path> {
    /// Returns the verdict with paths of its own, so that it outlives the lent lists.
    pub fn into_owned(self) -> Verdict {
        match self {
            Verdict::Safe { counts } => Verdict::Safe { counts },
            Verdict::Dangerous { first, second, meeting, first_path, second_path, counts } => {
                Verdict::Dangerous { first, second, meeting, first_path: first_path.into(), second_path: second_path.into(), counts }
            }
        }
    }
}

/// Returns the verdict of a file with no open element.
///
/// Each list needs as many sections as the station has; [`MAX_SECTIONS`](crate::MAX_SECTIONS) are always enough. A dangerous verdict puts a path at
/// the start of each and leaves the rest; a safe one leaves both lists unchanged.
///
/// # Errors
///
/// Refusals 1 to 8, 10 and 9, in this order. A refusal leaves both lists unchanged.
///
/// # Examples
///
/// ```
/// use judge::{MAX_SECTIONS, Section, Train, Verdict};
///
/// # let file = include_bytes!("../../stations/K.txt");
/// let (mut first, mut second) = ([Section(0); MAX_SECTIONS], [Section(0); MAX_SECTIONS]);
/// let Verdict::Dangerous { first, second, meeting, first_path, second_path, counts } = judge::verdict(file, &mut first, &mut second)? else {
///     panic!("station K is dangerous");
/// };
/// assert_eq!((first, second, meeting), (Train(1), Train(2), Section(5)));
/// assert_eq!(first_path, [1, 2, 3, 5].map(Section));
/// assert_eq!(second_path, [4, 5].map(Section));
/// assert_eq!((counts.entries, counts.looks), (6, 6));
/// # Ok::<(), judge::Refusal>(())
/// ```
pub fn verdict<'a>(
    file: &(impl StationFile + ?Sized),
    first: &'a mut [Section],
    second: &'a mut [Section],
) -> Result<Verdict<&'a [Section]>, Refusal> {
    let answer = ffi::verdict(&file.file_bytes()?, ffi::numbers_mut(first), ffi::numbers_mut(second));
    answer.refusal.result()?;
    let counts = Counts { entries: answer.entries, looks: answer.looks };
    Ok(match answer.dangerous {
        0 => Verdict::Safe { counts },
        _ => Verdict::Dangerous {
            first: Train(answer.first_train),
            second: Train(answer.second_train),
            meeting: Section(answer.meeting),
            first_path: &first[..answer.first_length],
            second_path: &second[..answer.second_length],
            counts,
        },
    })
}

/// Lends an operation memory for a setting, as long as the list, puts the setting that it writes at the start of the list, and gives the
/// operation's answer and that start. No element is open in a setting, so that it ends where the memory is still 0.
fn setting<Answer>(list: &mut [State], write: impl FnOnce(&mut [u8]) -> Answer) -> (Answer, &[State]) {
    let mut bytes = [0; MAX_ELEMENTS];
    let answer = write(&mut bytes[..list.len().min(MAX_ELEMENTS)]);
    let mut length = 0;
    for (place, byte) in list.iter_mut().zip(bytes) {
        match State::new(byte) {
            Some(state @ (State::One | State::Two)) => *place = state,
            Some(State::Open) | None => break,
        }
        length += 1;
    }
    (answer, &list[..length])
}

/// The answer to the settings question: `Settings` has its setting itself, and that of a `Settings<&[State]>` is a part of the list that was lent
/// to [`settings`].
#[derive(Clone, Copy, Debug, PartialEq, Eq, Hash)]
#[must_use]
pub enum Settings<Setting = Vec<State>> {
    /// No setting is safe.
    NoneSafe,
    /// Some settings are safe.
    Best {
        /// How many: 1 to 4,096.
        safe: u16,
        /// The open signals at proceed in the setting chosen; no safe setting has more.
        proceed: u16,
        /// The setting chosen: the state of each element, by number, and none is open.
        setting: Setting,
    },
}

impl<Setting: Into<Vec<State>>> Settings<Setting> {
    /// Returns the answer with a setting of its own, so that it outlives the lent list.
    pub fn into_owned(self) -> Settings {
        match self {
            Settings::NoneSafe => Settings::NoneSafe,
            Settings::Best { safe, proceed, setting } => Settings::Best { safe, proceed, setting: setting.into() },
        }
    }
}

/// Answers the settings question: how many settings of the open elements are safe, and the best of them. That is the one with the most open signals at
/// proceed; among equals, the first in the order that has a setting with [`State::One`] at the lowest element where they differ before the other.
///
/// The list needs as many states as the file has elements; [`MAX_ELEMENTS`](crate::MAX_ELEMENTS) are always enough. Where no setting is safe
/// it is unchanged, otherwise the setting is put at its start.
///
/// # Errors
///
/// Refusals 1 to 8, 11 and 9, in this order. A refusal leaves the list unchanged.
///
/// # Examples
///
/// ```
/// use judge::{MAX_ELEMENTS, Settings, State};
///
/// # let file = include_bytes!("../../stations/K6.txt");
/// let mut list = [State::Open; MAX_ELEMENTS];
/// let answer = judge::settings(file, &mut list)?;
/// assert_eq!(answer, Settings::Best { safe: 7, proceed: 2, setting: [State::One, State::One, State::One, State::Two].as_slice() });
/// # Ok::<(), judge::Refusal>(())
/// ```
pub fn settings<'a>(file: &(impl StationFile + ?Sized), list: &'a mut [State]) -> Result<Settings<&'a [State]>, Refusal> {
    let file = file.file_bytes()?;
    let (answer, setting) = setting(list, |memory| ffi::settings(&file, memory));
    answer.refusal.result()?;
    Ok(match answer.safe {
        0 => Settings::NoneSafe,
        safe => Settings::Best { safe, proceed: answer.proceed, setting },
    })
}

/// Returns a frame of the walk through all settings, counted from 0: its setting, put at the start of the list. From each frame to the next one open
/// element changes. With k open elements each setting is one of the frames 0 to 2 to the power k minus 1; a frame past the last starts over.
///
/// The list needs as many states as the file has elements; the rest of it keeps its content.
///
/// # Errors
///
/// Refusals 1 to 8, 11 and 9, in this order. A refusal leaves the list unchanged.
///
/// # Examples
///
/// ```
/// use judge::{MAX_ELEMENTS, State};
///
/// # let file = include_bytes!("../../stations/K6.txt");
/// let mut list = [State::Open; MAX_ELEMENTS];
/// assert_eq!(judge::frame(file, 0, &mut list)?, [State::One; 4]);
/// assert_eq!(judge::frame(file, 1, &mut list)?, [State::One, State::One, State::One, State::Two]);
/// assert_eq!(judge::frame(file, 16, &mut list)?, [State::One; 4]);
/// # Ok::<(), judge::Refusal>(())
/// ```
pub fn frame<'a>(file: &(impl StationFile + ?Sized), number: u64, list: &'a mut [State]) -> Result<&'a [State], Refusal> {
    let file = file.file_bytes()?;
    let (refusal, setting) = setting(list, |memory| ffi::frame(&file, number, memory));
    refusal.result()?;
    Ok(setting)
}

/// Says whether some setting of all the open elements is safe, however many signals are open.
///
/// # Errors
///
/// Refusals 1 to 8, and 11 for 13 or more open turnouts.
///
/// # Examples
///
/// ```
/// assert!(judge::can_be_safe(include_bytes!("../../stations/K6.txt"))?);
/// assert!(!judge::can_be_safe(include_bytes!("../../stations/K8.txt"))?);
/// # Ok::<(), judge::Refusal>(())
/// ```
pub fn can_be_safe(file: &(impl StationFile + ?Sized)) -> Result<bool, Refusal> {
    let answer = ffi::can_be_safe(&file.file_bytes()?);
    answer.refusal.result()?;
    Ok(answer.yes != 0)
}

/// Says whether a drawing is right: the two trains differ, `first` is a path that starts in a section of `first_train`, `second` one that starts in a
/// section of `second_train`, and both end in one section. A section may come twice; an empty list is no path, nor is one with a number that no
/// section has.
///
/// # Errors
///
/// Refusals 1 to 8, 10 and 12, in this order.
///
/// # Examples
///
/// ```
/// use judge::{Section, Train};
///
/// # let file = include_bytes!("../../stations/K.txt");
/// assert!(judge::drawing(file, Train(2), Train(1), &[4, 5].map(Section), &[1, 2, 3, 5].map(Section))?);
/// assert!(!judge::drawing(file, Train(2), Train(1), &[], &[1, 2, 3, 5].map(Section))?);
/// # Ok::<(), judge::Refusal>(())
/// ```
pub fn drawing(
    file: &(impl StationFile + ?Sized),
    first_train: Train,
    second_train: Train,
    first: &[Section],
    second: &[Section],
) -> Result<bool, Refusal> {
    let answer = ffi::drawing(&file.file_bytes()?, first_train.get(), second_train.get(), ffi::numbers(first), ffi::numbers(second));
    answer.refusal.result()?;
    Ok(answer.yes != 0)
}

/// Returns the shorter of two paths, the first where they are equally long.
///
/// ```
/// use judge::Section;
///
/// assert_eq!(judge::shorter(&[1, 2, 3, 5].map(Section), &[4, 5].map(Section)), [4, 5].map(Section));
/// ```
#[must_use]
pub fn shorter<'a>(first: &'a [Section], second: &'a [Section]) -> &'a [Section] {
    let part = ffi::shorter(ffi::numbers(first), first.len(), ffi::numbers(second), second.len());
    let list = if part.list == 2 { second } else { first };
    &list[..part.length]
}

/// Returns the key of any file, as the key program prints it, put at the start of the buffer: 22 bytes a line. A file's refusal is a key too, of one R
/// line.
///
/// The buffer needs [`KEY_SIZE`](crate::KEY_SIZE) bytes, whatever the key; the rest of it keeps its content.
///
/// # Errors
///
/// Refusal 9, which leaves the buffer unchanged.
pub fn key<'a>(file: &(impl StationFile + ?Sized), buffer: &'a mut [u8]) -> Result<&'a [u8], Refusal> {
    let output = key_counted(file, buffer)?;
    Ok(&buffer[..output.length])
}

/// Does what [`key`] does, and returns how many subtractions the digits took too.
///
/// # Errors
///
/// Those of [`key`].
///
/// # Examples
///
/// ```
/// let mut buffer = [0; judge::KEY_SIZE];
/// let output = judge::key_counted(b"", &mut buffer)?;
/// assert_eq!(&buffer[..output.length], b"R    1    0          \n");
/// assert_eq!(output.subtractions, 1);
/// # Ok::<(), judge::Refusal>(())
/// ```
pub fn key_counted(file: &(impl StationFile + ?Sized), buffer: &mut [u8]) -> Result<Output, Refusal> {
    ffi::key(&file.file_bytes()?, buffer).into()
}

/// Returns the key of any file, as the key program prints it. A file's refusal is a key too, of one R line.
///
/// ```
/// assert_eq!(judge::key_text(include_bytes!("../../stations/K.txt")), include_str!("../../stations/K.key"));
/// assert_eq!(judge::key_text(b""), "R    1    0          \n");
/// ```
#[must_use]
pub fn key_text(file: &[u8]) -> String {
    owned::key(file).expect("a key of any bytes")
}
