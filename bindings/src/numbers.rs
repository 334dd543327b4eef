//! The numbers of sections, trains, elements and routes, and the state of an element.

use std::fmt;

use crate::{Cause, Refusal};

/// A number type of its own for each thing that is counted, so that none is taken for another.
macro_rules! number {
    ($(#[$doc:meta])* $name:ident) => {
        $(#[$doc])*
        ///
        /// Numbers start at 1. Any number can be held: what is no number of the station in question is for the operations to say.
        #[repr(transparent)]
        #[derive(Clone, Copy, Debug, Default, PartialEq, Eq, PartialOrd, Ord, Hash)]
        pub struct $name(
            /// The number.
            pub u16,
        );

        impl $name {
            /// Returns the thing at a place of a list, counted from 0; `None` where its number would be above 65,535.
            #[must_use]
            pub fn at(place: usize) -> Option<$name> {
                u16::try_from(place).ok()?.checked_add(1).map($name)
            }

            /// Returns the number.
            #[must_use]
            pub const fn get(self) -> u16 {
                self.0
            }

            /// Returns the place in a list, counted from 0; `None` for number 0.
            #[must_use]
            pub fn place(self) -> Option<usize> {
                self.0.checked_sub(1).map(usize::from)
            }
        }

        impl From<u16> for $name {
            fn from(number: u16) -> $name {
                $name(number)
            }
        }

        impl From<$name> for u16 {
            fn from(number: $name) -> u16 {
                number.0
            }
        }

        impl fmt::Display for $name {
            fn fmt(&self, f: &mut fmt::Formatter<'_>) -> fmt::Result {
                self.0.fmt(f)
            }
        }
    };
}

number!(
    /// The number of a section of the station.
    Section
);
number!(
    /// The number of a train, in the order of the file's T lines.
    Train
);
number!(
    /// The number of an element, a signal or a turnout, in the order of the file's L and D lines.
    Element
);
number!(
    /// The number of a route, in the order of the route file's R lines.
    Route
);

/// The state of an element. An element with another state than [`State::Open`] in the file is fixed.
#[repr(u8)]
#[derive(Clone, Copy, Debug, Default, PartialEq, Eq, PartialOrd, Ord, Hash)]
pub enum State {
    /// 0: open. A setting gives the element one of the others.
    #[default]
    Open = 0,
    /// 1: proceed for a signal, straight for a turnout.
    One = 1,
    /// 2: stop for a signal, diverted for a turnout.
    Two = 2,
}

impl State {
    /// Returns the state of a number; `None` above 2.
    #[must_use]
    pub const fn new(number: u8) -> Option<State> {
        match number {
            0 => Some(State::Open),
            1 => Some(State::One),
            2 => Some(State::Two),
            _ => None,
        }
    }

    /// Returns the number, 0 to 2.
    #[must_use]
    pub const fn get(self) -> u8 {
        self as u8
    }

    /// Says whether the element is open.
    #[must_use]
    pub const fn is_open(self) -> bool {
        matches!(self, State::Open)
    }

    /// Says what the state is for a signal: `"open"`, `"proceed"` or `"stop"`.
    ///
    /// ```
    /// use judge::State;
    ///
    /// assert_eq!(State::One.of_signal(), "proceed");
    /// assert_eq!(State::One.of_turnout(), "straight");
    /// ```
    #[must_use]
    pub const fn of_signal(self) -> &'static str {
        match self {
            State::Open => "open",
            State::One => "proceed",
            State::Two => "stop",
        }
    }

    /// Says what the state is for a turnout: `"open"`, `"straight"` or `"diverted"`.
    #[must_use]
    pub const fn of_turnout(self) -> &'static str {
        match self {
            State::Open => "open",
            State::One => "straight",
            State::Two => "diverted",
        }
    }
}

/// A number above 2 is refused with 6, on no line.
///
/// ```
/// use judge::State;
///
/// assert_eq!(State::try_from(2), Ok(State::Two));
/// assert_eq!(State::try_from(3).unwrap_err().to_string(), "refusal 6: a state above 2");
/// ```
impl TryFrom<u8> for State {
    type Error = Refusal;

    fn try_from(number: u8) -> Result<State, Refusal> {
        State::new(number).ok_or(Refusal::new(Cause::StateRange, 0))
    }
}

impl From<State> for u8 {
    fn from(state: State) -> u8 {
        state.get()
    }
}

/// The number, as the file has it.
impl fmt::Display for State {
    fn fmt(&self, f: &mut fmt::Formatter<'_>) -> fmt::Result {
        self.get().fmt(f)
    }
}
