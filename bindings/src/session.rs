//! What is around a question: route tables, logs of answers, mark reports, the converter for old desks, and the placing of trains.

use std::fmt;

use crate::{Refusal, Route, Section, StationFile, ffi};

pub use crate::ffi::Mark;

/// Returns the part of a lent buffer that was filled.
fn filled(answer: ffi::Filled, buffer: &[u8]) -> Result<&[u8], Refusal> {
    answer.refusal.result()?;
    Ok(&buffer[..answer.length])
}

/// The table of conflicts of a route file: `ConflictTable` has its bytes itself, and those of a `ConflictTable<&[u8]>` are a part of the table that was
/// lent to [`routes`].
#[derive(Clone, Copy, Debug, PartialEq, Eq, Hash)]
#[must_use]
pub struct ConflictTable<Bytes = Vec<u8>> {
    routes: u16,
    bytes: Bytes,
}

impl<Bytes: AsRef<[u8]>> ConflictTable<Bytes> {
    /// Returns how many routes there are: 0 to 64.
    #[must_use]
    pub const fn routes(&self) -> u16 {
        self.routes
    }

    /// Says whether two routes conflict: they differ, and share a section or want one turnout in different states. `None` where either is no route
    /// of the file.
    #[must_use]
    pub fn conflict(&self, a: Route, b: Route) -> Option<bool> {
        let of_file = |route: &usize| *route < usize::from(self.routes);
        let (row, column) = (a.place().filter(of_file)?, b.place().filter(of_file)?);
        Some(self.bytes.as_ref()[row * usize::from(self.routes) + column] != 0)
    }
}

/// What these two return lasts as long as the lent table, also where the `ConflictTable` is gone.
impl<'a> ConflictTable<&'a [u8]> {
    /// Returns the routes that conflict with one, by number.
    pub fn conflicts(&self, route: Route) -> impl Iterator<Item = Route> + use<'a> {
        let table = *self;
        (1..=self.routes).map(Route).filter(move |&other| table.conflict(route, other) == Some(true))
    }

    /// Returns the table itself: the byte of the ordered pair (a, b) is at (a - 1) * routes + b - 1, and 1 is a conflict.
    #[must_use]
    pub const fn as_bytes(&self) -> &'a [u8] {
        self.bytes
    }
}

impl ConflictTable {
    /// Returns the routes that conflict with one, by number.
    pub fn conflicts(&self, route: Route) -> impl Iterator<Item = Route> {
        (1..=self.routes).map(Route).filter(move |&other| self.conflict(route, other) == Some(true))
    }

    /// Returns the table itself: the byte of the ordered pair (a, b) is at (a - 1) * routes + b - 1, and 1 is a conflict.
    #[must_use]
    pub fn as_bytes(&self) -> &[u8] {
        &self.bytes
    }
}

impl<Bytes: Into<Vec<u8>>> ConflictTable<Bytes> {
    /// Returns the table with bytes of its own, so that it outlives the lent ones.
    pub fn into_owned(self) -> ConflictTable {
        ConflictTable { routes: self.routes, bytes: self.bytes.into() }
    }
}

/// A line for each route, by number, with a digit for each route: 1 is a conflict.
///
/// ```
/// # let (station, routes) = (include_bytes!("../../stations/K.txt"), include_bytes!("../../stations/K.routes"));
/// assert_eq!(judge::owned::routes(station, routes)?.to_string(), include_str!("../../stations/K.table"));
/// # Ok::<(), judge::Refusal>(())
/// ```
impl<Bytes: AsRef<[u8]>> fmt::Display for ConflictTable<Bytes> {
    fn fmt(&self, f: &mut fmt::Formatter<'_>) -> fmt::Result {
        for row in self.bytes.as_ref().chunks(usize::from(self.routes).max(1)) {
            for conflict in row {
                write!(f, "{conflict}")?;
            }
            writeln!(f)?;
        }
        Ok(())
    }
}

/// Returns the table of conflicts of the routes of a route file in the station of a station file; open elements are no obstacle.
///
/// The table needs a byte for each ordered pair of routes; [`TABLE_SIZE`](crate::TABLE_SIZE) are always enough. The rest of it keeps its
/// content.
///
/// # Errors
///
/// Refusals 1 to 8 of the station file, then 14 and 15 of the route file, then 9. A refusal leaves the table unchanged.
///
/// # Examples
///
/// ```
/// use judge::{Route, TABLE_SIZE};
///
/// # let (station, routes) = (include_bytes!("../../stations/K.txt"), include_bytes!("../../stations/K.routes"));
/// let mut table = [0; TABLE_SIZE];
/// let table = judge::routes(station, routes, &mut table)?;
/// assert_eq!(table.routes(), 4);
/// assert_eq!(table.conflict(Route(1), Route(4)), Some(true));
/// assert_eq!(table.conflict(Route(1), Route(1)), Some(false));
/// assert_eq!(table.conflict(Route(1), Route(5)), None);
/// assert!(table.conflicts(Route(2)).eq([Route(1), Route(4)]));
/// # Ok::<(), judge::Refusal>(())
/// ```
pub fn routes<'a>(station: &(impl StationFile + ?Sized), routes: &[u8], table: &'a mut [u8]) -> Result<ConflictTable<&'a [u8]>, Refusal> {
    let answer = ffi::routes(&station.file_bytes()?, routes, table);
    let bytes = filled(answer, table)?;
    // A byte for each ordered pair of at most 64 routes.
    Ok(ConflictTable { routes: bytes.len().isqrt() as u16, bytes })
}

/// Returns the standing answers of a log, as C lines by candidate, then question, put at the start of the buffer. For one candidate and question the line
/// with the highest sequence stands; where its answer is 0, none does.
///
/// The buffer needs 22 bytes for each answer that stands; the log's length is always enough. The rest of it keeps its content.
///
/// # Errors
///
/// Refusals 16, 17 and 9, with the log's line. A refusal leaves the buffer unchanged.
///
/// # Examples
///
/// ```
/// let log = b"C    1    1    2    8\nC    1    1    1    5\n";
/// let mut buffer = [0; 44];
/// assert_eq!(judge::standing_answers(log, &mut buffer)?, b"C    1    1    2    8\n");
/// # Ok::<(), judge::Refusal>(())
/// ```
pub fn standing_answers<'a>(log: &[u8], buffer: &'a mut [u8]) -> Result<&'a [u8], Refusal> {
    let answer = ffi::standing_answers(log, buffer);
    filled(answer, buffer)
}

/// Returns the report of a session's mark records, put at the start of the buffer: for each candidate with a record, rising, an M line (candidate, marks
/// gained, marks possible), then a Z line (both sums over all records).
///
/// The buffer needs 22 bytes a line; [`REPORT_SIZE`](crate::REPORT_SIZE) are always enough. The rest of it keeps its content.
///
/// # Errors
///
/// Refusals 19, 18 and 9, in this order; the line of 18 is the place of the record, counted from 1. A refusal leaves the buffer unchanged.
///
/// # Examples
///
/// ```
/// use judge::Mark;
///
/// let marks = [Mark { candidate: 3, question: 1, gained: 4, possible: 10 }, Mark { candidate: 3, question: 2, gained: 6, possible: 6 }];
/// let mut buffer = [0; judge::REPORT_SIZE];
/// assert_eq!(judge::report(&marks, &mut buffer)?, b"M    3   10   16     \nZ   10   16          \n");
/// # Ok::<(), judge::Refusal>(())
/// ```
pub fn report<'a>(marks: &[Mark], buffer: &'a mut [u8]) -> Result<&'a [u8], Refusal> {
    let answer = ffi::report(marks, buffer);
    filled(answer, buffer)
}

/// Returns the station file with the letter S in front and no other byte changed, for desks that read only S files, put at the start of the buffer. A
/// file that has this letter comes out as it went in.
///
/// The buffer needs the file's length; the rest of it keeps its content.
///
/// # Errors
///
/// Refusals 1 to 8; then 13 where a train is in more than one section; then 9. A refusal leaves the buffer unchanged.
pub fn to_s<'a>(file: &[u8], buffer: &'a mut [u8]) -> Result<&'a [u8], Refusal> {
    let answer = ffi::to_s(file, buffer);
    filled(answer, buffer)
}

/// Returns the station file with the letter U in front and no other byte changed, put at the start of the buffer. A file that has this letter comes out
/// as it went in.
///
/// The buffer needs the file's length; the rest of it keeps its content.
///
/// # Errors
///
/// Refusals 1 to 9. A refusal leaves the buffer unchanged.
///
/// # Examples
///
/// ```
/// # let file = include_bytes!("../../stations/K.txt");
/// let (mut one, mut two) = (file.clone(), file.clone());
/// let long = judge::to_u(file, &mut one)?;
/// assert!(long.starts_with(b"U"));
/// assert_eq!(judge::to_s(long, &mut two)?, file);
/// # Ok::<(), judge::Refusal>(())
/// ```
pub fn to_u<'a>(file: &[u8], buffer: &'a mut [u8]) -> Result<&'a [u8], Refusal> {
    let answer = ffi::to_u(file, buffer);
    filled(answer, buffer)
}

/// Trains that were placed: `Placement` has their sections itself, and those of a `Placement<&[Section]>` are a part of the list that was lent to
/// [`place`].
#[derive(Clone, Copy, Debug, PartialEq, Eq, Hash)]
#[must_use]
pub struct Placement<Sections = Vec<Section>> {
    /// A section for each train, by number, all different.
    pub sections: Sections,
    /// The state after the last draw. As a paper number it lets the draws go on where these ended.
    pub state: u64,
}

impl<Sections: Into<Vec<Section>>> Placement<Sections> {
    /// Returns the placement with sections of its own, so that it outlives the lent list.
    pub fn into_owned(self) -> Placement {
        Placement { sections: self.sections.into(), state: self.state }
    }
}

/// Places trains: a section for each, all different, drawn from a paper number and put at the start of the list.
///
/// The list needs a section for each train; the rest of it keeps its content.
///
/// # Errors
///
/// Refusals 21, then 9. A refusal leaves the list unchanged.
///
/// # Examples
///
/// ```
/// use judge::Section;
///
/// let mut list = [Section(0); 4];
/// let placement = judge::place(1, 12, 3, &mut list)?;
/// assert_eq!(placement.sections.len(), 3);
/// assert!(placement.sections.iter().all(|&section| Section(1) <= section && section <= Section(12)));
/// assert_eq!(list[3], Section(0));
/// # Ok::<(), judge::Refusal>(())
/// ```
pub fn place(paper: u64, sections: u16, trains: u16, list: &mut [Section]) -> Result<Placement<&[Section]>, Refusal> {
    let answer = ffi::place(paper, sections, trains, ffi::numbers_mut(list));
    answer.refusal.result()?;
    Ok(Placement { sections: &list[..usize::from(trains)], state: answer.state })
}
