//! The C interface as it is: its structs, field by field, and its functions on slices, which are safe. All that is `unsafe` rests on this file.
//!
//! These values can hold what those of the crate's root cannot: counts above the arrays, states above 2, a train of more than four sections. The
//! functions take them all, and answer or refuse by include/judge.h. Everything else is easier from the root.

use std::ffi::c_char;
use std::mem::offset_of;

use crate::{MAX_ELEMENTS, MAX_PLAIN, MAX_STANDING, MAX_TRAINS, Section};

/// A refusal with the line it is found on, 0 where it belongs to no line. Number 0: no refusal.
#[repr(C)]
#[derive(Clone, Copy, Debug, PartialEq, Eq)]
#[must_use]
pub struct Refusal {
    /// 1 to 21, or 0.
    pub number: u16,
    /// Counted from 1.
    pub line: u16,
}

impl Refusal {
    /// No refusal.
    pub const NONE: Refusal = Refusal { number: 0, line: 0 };
}

/// A situation. Entries past the counts are ignored by [`write()`], and 0 from [`read`].
#[repr(C)]
#[derive(Clone, Debug, PartialEq, Eq)]
pub struct Situation {
    /// How many sections there are, by the first line.
    pub sections: u16,
    /// How many P lines.
    pub plain: u16,
    /// How many elements.
    pub elements: u16,
    /// How many trains.
    pub trains: u16,
    /// The first section of each P line.
    pub plain_from: [u16; MAX_PLAIN],
    /// The second section of each P line.
    pub plain_to: [u16; MAX_PLAIN],
    /// 0: a signal; anything else: a turnout.
    pub is_turnout: [u8; MAX_ELEMENTS],
    /// A signal's from, a turnout's stem.
    pub element_first: [u16; MAX_ELEMENTS],
    /// A signal's to, a turnout's straight leg.
    pub element_second: [u16; MAX_ELEMENTS],
    /// A turnout's diverted leg; of a signal ignored by [`write()`], and 0 from [`read`].
    pub element_third: [u16; MAX_ELEMENTS],
    /// The state of each element, 0 to 2.
    pub element_state: [u8; MAX_ELEMENTS],
    /// 0: the file begins with S; anything else: with U.
    pub is_long: u8,
    /// How many sections each train stands over: 1, in a U file 1 to 4.
    pub train_size: [u8; MAX_TRAINS],
    /// Which sections: train t's are at 4 * (t - 1) and after it; past its size as past the counts.
    pub train_section: [u16; MAX_TRAINS * MAX_STANDING],
}

impl Situation {
    /// Nothing but zeros: what [`read`] gives with a refusal.
    pub const ZEROS: Situation = Situation {
        sections: 0,
        plain: 0,
        elements: 0,
        trains: 0,
        plain_from: [0; MAX_PLAIN],
        plain_to: [0; MAX_PLAIN],
        is_turnout: [0; MAX_ELEMENTS],
        element_first: [0; MAX_ELEMENTS],
        element_second: [0; MAX_ELEMENTS],
        element_third: [0; MAX_ELEMENTS],
        element_state: [0; MAX_ELEMENTS],
        is_long: 0,
        train_size: [0; MAX_TRAINS],
        train_section: [0; MAX_TRAINS * MAX_STANDING],
    };
}

/// What [`read`] gives. After a refusal the situation is all zeros.
#[repr(C)]
#[derive(Clone, Debug, PartialEq, Eq)]
#[must_use]
pub struct Reading {
    /// Number 0 where the operation answers.
    pub refusal: Refusal,
    /// What the file holds.
    pub situation: Situation,
}

/// What [`verdict`] gives. A safe verdict has 0 in all fields but the counts; after a refusal all are 0.
#[repr(C)]
#[derive(Clone, Copy, Debug, PartialEq, Eq)]
#[must_use]
pub struct VerdictAnswer {
    /// Number 0 where the operation answers.
    pub refusal: Refusal,
    /// 1: dangerous, 0: safe.
    pub dangerous: u16,
    /// The lower of the two trains.
    pub first_train: u16,
    /// The higher of the two trains.
    pub second_train: u16,
    /// The lowest section in both reaches.
    pub meeting: u16,
    /// Sections in the reaches, added up.
    pub entries: u32,
    /// Permitted moves that leave a section of the reaches, added up.
    pub looks: u32,
    /// How many sections the first path has.
    pub first_length: usize,
    /// How many sections the second path has.
    pub second_length: usize,
}

impl VerdictAnswer {
    /// What [`verdict`] gives with a refusal: all else is 0.
    pub const fn refused(refusal: Refusal) -> VerdictAnswer {
        VerdictAnswer {
            refusal,
            dangerous: 0,
            first_train: 0,
            second_train: 0,
            meeting: 0,
            entries: 0,
            looks: 0,
            first_length: 0,
            second_length: 0,
        }
    }
}

/// What [`settings`] gives. Number of safe settings 0: no safe setting.
#[repr(C)]
#[derive(Clone, Copy, Debug, PartialEq, Eq)]
#[must_use]
pub struct SettingsAnswer {
    /// Number 0 where the operation answers.
    pub refusal: Refusal,
    /// The number of safe settings.
    pub safe: u16,
    /// The proceed count of the chosen setting.
    pub proceed: u16,
}

/// How much [`write()`] or [`key`] wrote at the start of the buffer. After a refusal both numbers are 0. A key's only refusal is 9; any other stands in
/// its text.
#[repr(C)]
#[derive(Clone, Copy, Debug, PartialEq, Eq)]
#[must_use]
pub struct Output {
    /// Number 0 where the operation answers.
    pub refusal: Refusal,
    /// How many bytes were written.
    pub length: usize,
    /// How many subtractions their digits took: the sum of all digits among them.
    pub subtractions: u32,
}

/// What an operation gives that fills the start of a buffer. After a refusal the length is 0.
#[repr(C)]
#[derive(Clone, Copy, Debug, PartialEq, Eq)]
#[must_use]
pub struct Filled {
    /// Number 0 where the operation answers.
    pub refusal: Refusal,
    /// How many bytes were filled.
    pub length: usize,
}

/// What [`shorter`] gives: list 1 or 2, and how many of its first numbers are the path.
#[repr(C)]
#[derive(Clone, Copy, Debug, PartialEq, Eq)]
#[must_use]
pub struct Part {
    /// 1: the first list, 2: the second.
    pub list: u16,
    /// How many of its first numbers are the path.
    pub length: usize,
}

/// The push-button desk: the bytes at addresses 0 to 4, and the state of each element in the file and now. Every value has a meaning:
/// elements above 256 mean 256.
#[repr(C)]
#[derive(Clone, Copy, Debug, PartialEq, Eq)]
pub struct Desk {
    /// Address 0; bit 0 enables the interrupt.
    pub control: u8,
    /// Address 1; bit 0: change pending, bit 1: last set failed.
    pub status: u8,
    /// Address 2: the low byte of the element number.
    pub number_low: u8,
    /// Address 3: its high byte.
    pub number_high: u8,
    /// Address 4: the state to set.
    pub state: u8,
    /// How many elements the station has.
    pub elements: u16,
    /// The states of the file: 0 is open, and only such an element can be set.
    pub file_state: [u8; MAX_ELEMENTS],
    /// The states now.
    pub element_state: [u8; MAX_ELEMENTS],
}

/// What [`desk_start`] and [`desk_write`] give. After a start that is refused the desk is all zeros, after refusal 20 it is as it was.
#[repr(C)]
#[derive(Clone, Copy, Debug, PartialEq, Eq)]
#[must_use]
pub struct DeskAnswer {
    /// Number 0 where the operation answers.
    pub refusal: Refusal,
    /// The desk afterwards.
    pub desk: Desk,
}

/// What [`desk_read`] gives; after a refusal the byte is 0.
#[repr(C)]
#[derive(Clone, Copy, Debug, PartialEq, Eq)]
#[must_use]
pub struct DeskByte {
    /// Number 0 where the operation answers.
    pub refusal: Refusal,
    /// The byte, 0 to 255.
    pub byte: u16,
}

/// What [`place`] gives: the state after the last draw, 0 after a refusal.
#[repr(C)]
#[derive(Clone, Copy, Debug, PartialEq, Eq)]
#[must_use]
pub struct Placed {
    /// Number 0 where the operation answers.
    pub refusal: Refusal,
    /// The state after the last draw.
    pub state: u64,
}

/// What an operation gives that is asked a yes or no: 1 or 0.
#[repr(C)]
#[derive(Clone, Copy, Debug, PartialEq, Eq)]
#[must_use]
pub struct YesNo {
    /// Number 0 where the operation answers.
    pub refusal: Refusal,
    /// 1: yes, 0: no.
    pub yes: u16,
}

/// A mark record: what a candidate gained of the marks possible in a question.
#[repr(C)]
#[derive(Clone, Copy, Debug, PartialEq, Eq)]
pub struct Mark {
    /// 1 to 9999.
    pub candidate: u16,
    /// 1 to 99.
    pub question: u16,
    /// At most the marks possible.
    pub gained: u16,
    /// At most 100.
    pub possible: u16,
}

/// States that a struct has this size and its fields these offsets: the layout that a C compiler gives it.
macro_rules! layout {
    ($($kind:ident: $size:literal { $($field:ident: $offset:literal),* })*) => {
        $(
            const _: () = assert!(size_of::<$kind>() == $size);
            $(const _: () = assert!(offset_of!($kind, $field) == $offset);)*
        )*
    };
}

layout! {
    Refusal: 4 { number: 0, line: 2 }
    Situation: 6730 {
        sections: 0, plain: 2, elements: 4, trains: 6, plain_from: 8, plain_to: 2056, is_turnout: 4104, element_first: 4360,
        element_second: 4872, element_third: 5384, element_state: 5896, is_long: 6152, train_size: 6153, train_section: 6218
    }
    Reading: 6734 { refusal: 0, situation: 4 }
    VerdictAnswer: 40 {
        refusal: 0, dangerous: 4, first_train: 6, second_train: 8, meeting: 10, entries: 12, looks: 16, first_length: 24, second_length: 32
    }
    SettingsAnswer: 8 { refusal: 0, safe: 4, proceed: 6 }
    Output: 24 { refusal: 0, length: 8, subtractions: 16 }
    Filled: 16 { refusal: 0, length: 8 }
    Part: 16 { list: 0, length: 8 }
    Desk: 520 { control: 0, status: 1, number_low: 2, number_high: 3, state: 4, elements: 6, file_state: 8, element_state: 264 }
    DeskAnswer: 524 { refusal: 0, desk: 4 }
    DeskByte: 6 { refusal: 0, byte: 4 }
    Placed: 16 { refusal: 0, state: 8 }
    YesNo: 6 { refusal: 0, yes: 4 }
    Mark: 8 { candidate: 0, question: 2, gained: 4, possible: 6 }
}

const _: () = assert!(size_of::<usize>() == 8);

// A slice passes as a pointer and then a length in elements; what is owed for it stands in include/judge.h. Functions without pointers take any
// value. The library itself is named in build.rs.
unsafe extern "C" {
    /// What [`read`] calls.
    pub fn judge_read(file: *const u8, length: usize) -> Reading;
    /// What [`write()`] calls.
    pub fn judge_write(situation: Situation, buffer: *mut u8, room: usize) -> Output;
    /// What [`verdict`] calls.
    pub fn judge_verdict(
        file: *const u8,
        length: usize,
        first: *mut u16,
        first_room: usize,
        second: *mut u16,
        second_room: usize,
    ) -> VerdictAnswer;
    /// What [`settings`] calls.
    pub fn judge_settings(file: *const u8, length: usize, buffer: *mut u8, room: usize) -> SettingsAnswer;
    /// What [`key`] calls.
    pub fn judge_key(file: *const u8, length: usize, buffer: *mut u8, room: usize) -> Output;
    /// What [`shorter`] calls.
    pub fn judge_shorter(
        first: *const u16,
        first_room: usize,
        first_length: usize,
        second: *const u16,
        second_room: usize,
        second_length: usize,
    ) -> Part;
    /// What [`desk_start`] calls.
    pub fn judge_desk_start(file: *const u8, length: usize) -> DeskAnswer;
    /// What [`desk_write`] calls.
    pub safe fn judge_desk_write(desk: Desk, address: u16, byte: u8) -> DeskAnswer;
    /// What [`desk_read`] calls.
    pub safe fn judge_desk_read(desk: Desk, address: u16) -> DeskByte;
    /// What [`desk_interrupt`] calls.
    pub safe fn judge_desk_interrupt(desk: Desk) -> u16;
    /// What [`place`] calls.
    pub fn judge_place(paper: u64, sections: u16, trains: u16, list: *mut u16, room: usize) -> Placed;
    /// What [`drawing`] calls.
    pub fn judge_drawing(
        file: *const u8,
        length: usize,
        first_train: u16,
        second_train: u16,
        first: *const u16,
        first_length: usize,
        second: *const u16,
        second_length: usize,
    ) -> YesNo;
    /// What [`standing_answers`] calls.
    pub fn judge_standing_answers(log: *const u8, length: usize, buffer: *mut u8, room: usize) -> Filled;
    /// What [`to_s`] calls.
    pub fn judge_to_s(file: *const u8, length: usize, buffer: *mut u8, room: usize) -> Filled;
    /// What [`to_u`] calls.
    pub fn judge_to_u(file: *const u8, length: usize, buffer: *mut u8, room: usize) -> Filled;
    /// What [`routes`] calls.
    pub fn judge_routes(
        station: *const u8,
        station_length: usize,
        routes: *const u8,
        routes_length: usize,
        table: *mut u8,
        room: usize,
    ) -> Filled;
    /// What [`frame`] calls.
    pub fn judge_frame(file: *const u8, length: usize, frame: u64, buffer: *mut u8, room: usize) -> Refusal;
    /// What [`report`] calls.
    pub fn judge_report(marks: *const Mark, length: usize, buffer: *mut u8, room: usize) -> Filled;
    /// What [`can_be_safe`] calls.
    pub fn judge_can_be_safe(file: *const u8, length: usize) -> YesNo;
    /// The library's version: a text that ends with a 0 byte and stays. Not proved.
    pub safe fn judge_version() -> *const c_char;
    /// The words of [`crate::Cause::meaning`], for any number. Not proved.
    pub safe fn judge_refusal_text(number: u16) -> *const c_char;
}

/// [`read`](crate::read) with the values of C.
pub fn read(file: &[u8]) -> Reading {
    // SAFETY: pointer and length are those of a slice that lives through the call, and the library only reads it.
    unsafe { judge_read(file.as_ptr(), file.len()) }
}

/// [`write`](crate::write()) with the values of C.
pub fn write(situation: &Situation, buffer: &mut [u8]) -> Output {
    // SAFETY: pointer and length are those of a slice that is lent to this call alone; the situation is copied.
    unsafe { judge_write(situation.clone(), buffer.as_mut_ptr(), buffer.len()) }
}

/// [`verdict`](crate::verdict) with the values of C.
pub fn verdict(file: &[u8], first: &mut [u16], second: &mut [u16]) -> VerdictAnswer {
    // SAFETY: pointers and lengths are those of three slices that do not overlap, the last two lent to this call alone.
    unsafe { judge_verdict(file.as_ptr(), file.len(), first.as_mut_ptr(), first.len(), second.as_mut_ptr(), second.len()) }
}

/// [`settings`](crate::settings) with the values of C.
pub fn settings(file: &[u8], buffer: &mut [u8]) -> SettingsAnswer {
    // SAFETY: pointers and lengths are those of two slices that do not overlap, the second lent to this call alone.
    unsafe { judge_settings(file.as_ptr(), file.len(), buffer.as_mut_ptr(), buffer.len()) }
}

/// [`key`](crate::key) with the values of C.
pub fn key(file: &[u8], buffer: &mut [u8]) -> Output {
    // SAFETY: pointers and lengths are those of two slices that do not overlap, the second lent to this call alone.
    unsafe { judge_key(file.as_ptr(), file.len(), buffer.as_mut_ptr(), buffer.len()) }
}

/// [`routes`](crate::routes) with the values of C.
pub fn routes(station: &[u8], routes: &[u8], table: &mut [u8]) -> Filled {
    // SAFETY: pointers and lengths are those of three slices that do not overlap, the last lent to this call alone.
    unsafe { judge_routes(station.as_ptr(), station.len(), routes.as_ptr(), routes.len(), table.as_mut_ptr(), table.len()) }
}

/// [`shorter`](crate::shorter) with the values of C. A path is the first numbers of its list; a length above the list means the whole list.
pub fn shorter(first: &[u16], first_length: usize, second: &[u16], second_length: usize) -> Part {
    // SAFETY: pointers and lengths are those of two slices that live through the call, and the library only reads them.
    unsafe { judge_shorter(first.as_ptr(), first.len(), first_length, second.as_ptr(), second.len(), second_length) }
}

/// [`Desk::start`](crate::Desk::start) with the values of C.
pub fn desk_start(file: &[u8]) -> DeskAnswer {
    // SAFETY: pointer and length are those of a slice that lives through the call, and the library only reads it.
    unsafe { judge_desk_start(file.as_ptr(), file.len()) }
}

/// [`Desk::write`](crate::Desk::write) with the values of C.
pub fn desk_write(desk: Desk, address: u16, byte: u8) -> DeskAnswer {
    judge_desk_write(desk, address, byte)
}

/// [`Desk::read`](crate::Desk::read) with the values of C.
pub fn desk_read(desk: Desk, address: u16) -> DeskByte {
    judge_desk_read(desk, address)
}

/// [`Desk::interrupt`](crate::Desk::interrupt) with the values of C.
#[must_use]
pub fn desk_interrupt(desk: Desk) -> u16 {
    judge_desk_interrupt(desk)
}

/// [`place`](crate::place) with the values of C.
pub fn place(paper: u64, sections: u16, trains: u16, list: &mut [u16]) -> Placed {
    // SAFETY: pointer and length are those of a slice that is lent to this call alone.
    unsafe { judge_place(paper, sections, trains, list.as_mut_ptr(), list.len()) }
}

/// [`drawing`](crate::drawing) with the values of C.
pub fn drawing(file: &[u8], first_train: u16, second_train: u16, first: &[u16], second: &[u16]) -> YesNo {
    // SAFETY: pointers and lengths are those of three slices that live through the call, and the library only reads them.
    unsafe {
        judge_drawing(file.as_ptr(), file.len(), first_train, second_train, first.as_ptr(), first.len(), second.as_ptr(), second.len())
    }
}

/// [`standing_answers`](crate::standing_answers) with the values of C.
pub fn standing_answers(log: &[u8], buffer: &mut [u8]) -> Filled {
    // SAFETY: pointers and lengths are those of two slices that do not overlap, the second lent to this call alone.
    unsafe { judge_standing_answers(log.as_ptr(), log.len(), buffer.as_mut_ptr(), buffer.len()) }
}

/// [`frame`](crate::frame) with the values of C.
pub fn frame(file: &[u8], frame: u64, buffer: &mut [u8]) -> Refusal {
    // SAFETY: pointers and lengths are those of two slices that do not overlap, the second lent to this call alone.
    unsafe { judge_frame(file.as_ptr(), file.len(), frame, buffer.as_mut_ptr(), buffer.len()) }
}

/// [`report`](crate::report) with the values of C.
pub fn report(marks: &[Mark], buffer: &mut [u8]) -> Filled {
    // SAFETY: pointers and lengths are those of two slices that do not overlap, the second lent to this call alone.
    unsafe { judge_report(marks.as_ptr(), marks.len(), buffer.as_mut_ptr(), buffer.len()) }
}

/// [`can_be_safe`](crate::can_be_safe) with the values of C.
pub fn can_be_safe(file: &[u8]) -> YesNo {
    // SAFETY: pointer and length are those of a slice that lives through the call, and the library only reads it.
    unsafe { judge_can_be_safe(file.as_ptr(), file.len()) }
}

/// [`to_s`](crate::to_s) with the values of C.
pub fn to_s(file: &[u8], buffer: &mut [u8]) -> Filled {
    // SAFETY: pointers and lengths are those of two slices that do not overlap, the second lent to this call alone.
    unsafe { judge_to_s(file.as_ptr(), file.len(), buffer.as_mut_ptr(), buffer.len()) }
}

/// [`to_u`](crate::to_u) with the values of C.
pub fn to_u(file: &[u8], buffer: &mut [u8]) -> Filled {
    // SAFETY: pointers and lengths are those of two slices that do not overlap, the second lent to this call alone.
    unsafe { judge_to_u(file.as_ptr(), file.len(), buffer.as_mut_ptr(), buffer.len()) }
}

/// Returns section numbers as the library takes them.
#[must_use]
pub fn numbers(list: &[Section]) -> &[u16] {
    // SAFETY: a `Section` has the layout of its number, and every number is one.
    unsafe { std::slice::from_raw_parts(list.as_ptr().cast(), list.len()) }
}

/// Returns section numbers as the library fills them.
pub fn numbers_mut(list: &mut [Section]) -> &mut [u16] {
    // SAFETY: a `Section` has the layout of its number, and every number is one.
    unsafe { std::slice::from_raw_parts_mut(list.as_mut_ptr().cast(), list.len()) }
}
