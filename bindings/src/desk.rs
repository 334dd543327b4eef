//! The push-button desk.

use crate::{Element, MAX_ELEMENTS, Refusal, State, StationFile, ffi};

/// The push-button desk of a station file, which speaks through bytes at addresses 0 to 5.
///
/// [`COMMAND`](Desk::COMMAND) 1 gives the element the state, if the element was open in the file and the state is 1 or 2: the change is pending
/// then, and the last set has not failed. If not, it has failed, and nothing else changes. Command 2 clears both bits of the status; any other
/// does nothing.
///
/// ```
/// use judge::{Desk, Element, State};
///
/// # let file = include_bytes!("../../stations/K6.txt");
/// let mut desk = Desk::start(file)?;
/// desk.write(Desk::CONTROL, 1)?;
/// desk.write(Desk::NUMBER_LOW, 3)?;
/// desk.write(Desk::STATE, 2)?;
/// desk.write(Desk::COMMAND, Desk::SET)?;
/// assert_eq!(desk.state(Element(3)), Some(State::Two));
/// assert!(desk.interrupt());
///
/// desk.write(Desk::COMMAND, Desk::CLEAR)?;
/// assert_eq!(desk.read(Desk::STATUS)?, 0);
/// assert!(!desk.interrupt());
/// assert_eq!(desk.read(6).unwrap_err().number(), 20);
/// # Ok::<(), judge::Refusal>(())
/// ```
#[derive(Clone, Copy, Debug, PartialEq, Eq)]
pub struct Desk(ffi::Desk);

impl Desk {
    /// The address of the control byte; its bit 0 enables the interrupt.
    pub const CONTROL: u16 = 0;
    /// The address of the status: bit 0 change pending, bit 1 last set failed. Writes to it are ignored.
    pub const STATUS: u16 = 1;
    /// The address of the element number's low byte.
    pub const NUMBER_LOW: u16 = 2;
    /// The address of the element number's high byte.
    pub const NUMBER_HIGH: u16 = 3;
    /// The address of the state to set.
    pub const STATE: u16 = 4;
    /// The address of the command, which is carried out when it is written. It always reads 0.
    pub const COMMAND: u16 = 5;
    /// The command that sets the element to the state.
    pub const SET: u8 = 1;
    /// The command that clears both bits of the status.
    pub const CLEAR: u8 = 2;

    /// Returns the desk of a station file: all its bytes are 0, and each element has the state of the file.
    ///
    /// # Errors
    ///
    /// Refusals 1 to 8.
    pub fn start(file: &(impl StationFile + ?Sized)) -> Result<Desk, Refusal> {
        let answer = ffi::desk_start(&file.file_bytes()?);
        answer.refusal.result()?;
        Ok(Desk(answer.desk))
    }

    /// Writes a byte at an address.
    ///
    /// # Errors
    ///
    /// Refusal 20, which leaves the desk unchanged.
    pub fn write(&mut self, address: u16, byte: u8) -> Result<(), Refusal> {
        let answer = ffi::desk_write(self.0, address, byte);
        answer.refusal.result()?;
        self.0 = answer.desk;
        Ok(())
    }

    /// Returns the byte at an address.
    ///
    /// # Errors
    ///
    /// Refusal 20.
    pub fn read(&self, address: u16) -> Result<u8, Refusal> {
        let answer = ffi::desk_read(self.0, address);
        answer.refusal.result()?;
        // A byte: the number is below 256.
        Ok(answer.byte as u8)
    }

    /// Says whether the interrupt line is high: it is enabled, and a change is pending.
    #[must_use]
    pub fn interrupt(&self) -> bool {
        ffi::desk_interrupt(self.0) != 0
    }

    /// Returns how many elements the station has.
    #[must_use]
    pub fn elements(&self) -> u16 {
        self.0.elements
    }

    /// Returns the state of an element now; `None` where the station has no such element.
    #[must_use]
    pub fn state(&self, element: Element) -> Option<State> {
        self.of_element(&self.0.element_state, element)
    }

    /// Returns the state of an element in the file; `None` where the station has no such element.
    #[must_use]
    pub fn file_state(&self, element: Element) -> Option<State> {
        self.of_element(&self.0.file_state, element)
    }

    fn of_element(&self, states: &[u8; MAX_ELEMENTS], element: Element) -> Option<State> {
        let place = element.place().filter(|&place| place < usize::from(self.0.elements))?;
        states.get(place).copied().and_then(State::new)
    }
}

/// The desk as the library has it.
impl From<Desk> for ffi::Desk {
    fn from(desk: Desk) -> ffi::Desk {
        desk.0
    }
}
