//! The operations that fill lent memory, with memory of their own in place of it: what they give can leave any function. Refusal 9 is not among
//! theirs.

use crate::{
    ConflictTable, KEY_SIZE, MAX_ELEMENTS, MAX_FILE, MAX_LOG, MAX_SECTIONS, MAX_TRAINS, Mark, Placement, REPORT_SIZE, Refusal, Section,
    Settings, State, StationFile, TABLE_SIZE, Verdict,
};

/// Returns what an operation puts at the start of a buffer of so many bytes.
fn bytes(room: usize, fill: impl FnOnce(&mut [u8]) -> Result<&[u8], Refusal>) -> Result<Vec<u8>, Refusal> {
    let mut buffer = vec![0; room];
    let length = fill(&mut buffer)?.len();
    buffer.truncate(length);
    Ok(buffer)
}

/// Returns the lines that an operation puts at the start of a buffer of so many bytes.
fn text(room: usize, fill: impl FnOnce(&mut [u8]) -> Result<&[u8], Refusal>) -> Result<String, Refusal> {
    // Lines are letters, digits, spaces and line feeds.
    Ok(String::from_utf8(bytes(room, fill)?).expect("lines of ASCII characters"))
}

/// [`verdict`](crate::verdict), with lists of its own.
///
/// # Errors
///
/// Refusals 1 to 8 and 10, in this order.
///
/// # Examples
///
/// ```
/// use judge::{Refusal, Section, Verdict};
///
/// fn meeting(file: &[u8]) -> Result<Verdict, Refusal> {
///     judge::owned::verdict(file)
/// }
///
/// let Verdict::Dangerous { first_path, second_path, .. } = meeting(include_bytes!("../../stations/K.txt"))? else {
///     panic!("station K is dangerous");
/// };
/// assert_eq!((first_path, second_path), ([1, 2, 3, 5].map(Section).to_vec(), [4, 5].map(Section).to_vec()));
/// # Ok::<(), Refusal>(())
/// ```
pub fn verdict(file: &(impl StationFile + ?Sized)) -> Result<Verdict, Refusal> {
    let (mut first, mut second) = ([Section(0); MAX_SECTIONS], [Section(0); MAX_SECTIONS]);
    crate::verdict(file, &mut first, &mut second).map(Verdict::into_owned)
}

/// [`settings`](crate::settings), with a list of its own.
///
/// # Errors
///
/// Refusals 1 to 8 and 11, in this order.
pub fn settings(file: &(impl StationFile + ?Sized)) -> Result<Settings, Refusal> {
    crate::settings(file, &mut [State::Open; MAX_ELEMENTS]).map(Settings::into_owned)
}

/// [`frame`](crate::frame), with a list of its own.
///
/// # Errors
///
/// Refusals 1 to 8 and 11, in this order.
pub fn frame(file: &(impl StationFile + ?Sized), number: u64) -> Result<Vec<State>, Refusal> {
    crate::frame(file, number, &mut [State::Open; MAX_ELEMENTS]).map(<[State]>::to_vec)
}

/// [`key`](crate::key), as text. Bytes always have a key, which is [`key_text`](crate::key_text).
///
/// # Errors
///
/// Those of [`StationFile::file_bytes`].
pub fn key(file: &(impl StationFile + ?Sized)) -> Result<String, Refusal> {
    text(KEY_SIZE, |buffer| crate::key(file, buffer))
}

/// [`routes`](crate::routes), with a table of its own.
///
/// # Errors
///
/// Refusals 1 to 8 of the station file, then 14 and 15 of the route file.
pub fn routes(station: &(impl StationFile + ?Sized), routes: &[u8]) -> Result<ConflictTable, Refusal> {
    crate::routes(station, routes, &mut [0; TABLE_SIZE]).map(ConflictTable::into_owned)
}

/// [`standing_answers`](crate::standing_answers), as text.
///
/// # Errors
///
/// Refusals 16 and 17, with the log's line.
pub fn standing_answers(log: &[u8]) -> Result<String, Refusal> {
    text(log.len().min(MAX_LOG), |buffer| crate::standing_answers(log, buffer))
}

/// [`report`](crate::report), as text.
///
/// # Errors
///
/// Refusals 19 and 18, in this order; the line of 18 is the place of the record, counted from 1.
pub fn report(marks: &[Mark]) -> Result<String, Refusal> {
    text(REPORT_SIZE, |buffer| crate::report(marks, buffer))
}

/// [`to_s`](crate::to_s), with a buffer of its own.
///
/// # Errors
///
/// Refusals 1 to 8; then 13 where a train is in more than one section.
pub fn to_s(file: &[u8]) -> Result<Vec<u8>, Refusal> {
    bytes(file.len().min(MAX_FILE), |buffer| crate::to_s(file, buffer))
}

/// [`to_u`](crate::to_u), with a buffer of its own.
///
/// # Errors
///
/// Refusals 1 to 8.
pub fn to_u(file: &[u8]) -> Result<Vec<u8>, Refusal> {
    bytes(file.len().min(MAX_FILE), |buffer| crate::to_u(file, buffer))
}

/// [`place`](crate::place), with a list of its own.
///
/// # Errors
///
/// Refusal 21.
pub fn place(paper: u64, sections: u16, trains: u16) -> Result<Placement, Refusal> {
    crate::place(paper, sections, trains, &mut [Section(0); MAX_TRAINS]).map(Placement::into_owned)
}
