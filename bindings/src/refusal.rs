//! The numbered refusals.

use std::{error::Error, fmt};

use crate::ffi;

/// Declares the causes with their numbers and their words.
macro_rules! causes {
    ($($name:ident = $number:literal: $words:literal,)*) => {
        /// What an operation refuses. 1 to 8: whoever drew the station file; 14 and 15: whoever wrote the route file; 16 and 17: whoever sent the log; the
        /// others: whoever calls.
        #[repr(u16)]
        #[derive(Clone, Copy, Debug, PartialEq, Eq, PartialOrd, Ord, Hash)]
        #[non_exhaustive]
        pub enum Cause {
            $(
                #[doc = concat!(stringify!($number), ": ", $words, ".")]
                $name = $number,
            )*
        }

        impl Cause {
            /// All causes, by rising number.
            pub const ALL: &[Cause] = &[$(Cause::$name),*];

            /// Returns the cause of a number; `None` where no cause has it.
            #[must_use]
            pub const fn new(number: u16) -> Option<Cause> {
                match number {
                    $($number => Some(Cause::$name),)*
                    _ => None,
                }
            }

            /// Returns the cause in words.
            #[must_use]
            pub const fn meaning(self) -> &'static str {
                match self {
                    $(Cause::$name => $words,)*
                }
            }
        }
    };
}

causes! {
    FileLength = 1: "the file is empty, not a multiple of 22 bytes, or above 29,590 bytes",
    LineForm = 2: "a line is not of the stated form, or its letter is not allowed at that place",
    HeaderRange = 3: "an S or U field outside its range",
    LineCount = 4: "the number of lines is not 1 plus the three counts",
    SectionRange = 5: "a section number outside 1 to the number of sections",
    StateRange = 6: "a state above 2",
    SectionTwice = 7: "a section twice in one P, L, D or T line",
    PairTwice = 8: "an ordered pair that an earlier line stands over, other than one signal and one turnout",
    BufferShort = 9: "a lent buffer too short",
    ElementOpen = 10: "a verdict or a drawing while an element is open",
    TooManyOpen = 11: "13 or more open elements, or open turnouts where only those are tried",
    NoTrain = 12: "a train number of 0 or above the number of trains",
    TrainLong = 13: "a train in more than one section, which an S file cannot have",
    RouteLine = 14: "a route line of another form or letter, cut or missing, a number outside the limits or the station, or an element of the wrong sort",
    RouteStep = 15: "two consecutive sections of a route whose ordered pair no station line stands over",
    LogForm = 16: "a log of cut lines or too many, or a line of wrong form or range",
    LogSequence = 17: "a sequence already seen for that candidate and question",
    MarkRange = 18: "a candidate or question outside its range, more marks gained than possible, or above 100 possible",
    TooManyMarks = 19: "a list of more than 999 mark records",
    DeskAddress = 20: "a read or write at an address above 5",
    PlacementRange = 21: "a number of sections outside 1 to 512, or more trains than sections or than 64",
}

/// The cause in words.
impl fmt::Display for Cause {
    fn fmt(&self, f: &mut fmt::Formatter<'_>) -> fmt::Result {
        f.pad(self.meaning())
    }
}

impl Cause {
    /// Returns the number, 1 to 21.
    #[must_use]
    pub const fn number(self) -> u16 {
        self as u16
    }
}

/// A refusal: its cause, and the line where it is found. A refusal leaves all lent memory unchanged.
///
/// ```
/// let refusal = judge::read(b"S    5").unwrap_err();
///
/// assert_eq!(refusal.number(), 1);
/// assert_eq!(refusal.line(), 0);
/// assert_eq!(refusal.meaning(), "the file is empty, not a multiple of 22 bytes, or above 29,590 bytes");
/// assert_eq!(refusal.to_string(), "refusal 1: the file is empty, not a multiple of 22 bytes, or above 29,590 bytes");
/// ```
#[derive(Clone, Copy, Debug, PartialEq, Eq, Hash)]
pub struct Refusal {
    cause: Cause,
    line: u16,
}

impl Refusal {
    /// Returns a refusal with this cause on this line, 0 where the cause belongs to no line.
    #[must_use]
    pub const fn new(cause: Cause, line: u16) -> Refusal {
        Refusal { cause, line }
    }

    /// Returns what was refused.
    #[must_use]
    pub const fn cause(self) -> Cause {
        self.cause
    }

    /// Returns the number of the cause, 1 to 21.
    #[must_use]
    pub const fn number(self) -> u16 {
        self.cause.number()
    }

    /// Returns the line, counted from 1, of the file that the cause is about: the station file, the route file or the log; for [`Cause::MarkRange`]
    /// the place of the mark record. 0 where the cause belongs to no line.
    #[must_use]
    pub const fn line(self) -> u16 {
        self.line
    }

    /// Returns the cause in words, without number and line.
    #[must_use]
    pub const fn meaning(self) -> &'static str {
        self.cause.meaning()
    }
}

/// Number, line if there is one, and the words of the cause.
impl fmt::Display for Refusal {
    fn fmt(&self, f: &mut fmt::Formatter<'_>) -> fmt::Result {
        write!(f, "refusal {}", self.number())?;
        if self.line != 0 {
            let place = if self.cause == Cause::MarkRange { "record" } else { "line" };
            write!(f, ", {place} {}", self.line)?;
        }
        write!(f, ": {}", self.meaning())
    }
}

impl Error for Refusal {}

impl ffi::Refusal {
    /// `Ok` for number 0.
    ///
    /// # Errors
    ///
    /// The refusal, for any other number.
    ///
    /// # Panics
    ///
    /// Where the number is above 21, which no operation gives.
    pub fn result(self) -> Result<(), Refusal> {
        match (self.number, Cause::new(self.number)) {
            (0, _) => Ok(()),
            (_, Some(cause)) => Err(Refusal::new(cause, self.line)),
            (number, None) => panic!("no refusal has number {number}"),
        }
    }
}

impl From<Refusal> for ffi::Refusal {
    fn from(refusal: Refusal) -> ffi::Refusal {
        ffi::Refusal { number: refusal.number(), line: refusal.line }
    }
}
