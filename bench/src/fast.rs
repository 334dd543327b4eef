//! The task of documents 01 and 02 in plain Rust, optimised by hand: what the library's times are compared with.
//!
//! A field is read as a word, two fields of at most four digits as the halves of one; refusal 8 is a table of two bits for each ordered pair. Whether some
//! pair stands under a signal and a turnout is known from reading; only then does an element take moves away from another's. The verdict is one search over
//! lists of moves, which keeps the paths: up to the train that meets another one no section is reached twice. The settings are in `fast_settings`.

use crate::fast_settings::{MOST_OPEN, Trial};
use judge::ffi::{Filled, Output, Reading, Refusal, SettingsAnswer, Situation, VerdictAnswer, YesNo};
use oracle::subject::Subject;

pub(crate) const LINE: usize = 22;
const MOST_BYTES: usize = 29_590;
const LONGEST_KEY: usize = LINE * 1025;

pub(crate) const fn refusal(number: u16, line: usize) -> Refusal {
    Refusal { number, line: line as u16 }
}

/// The answer of an operation that fills no byte of its buffer.
pub(crate) const fn refused(refusal: Refusal) -> Filled {
    Filled { refusal, length: 0 }
}

// ---- lines

pub(crate) const MALFORMED: u32 = u32::MAX;

/// The byte in each place of a word.
const fn in_each(byte: u8) -> u64 {
    u64::from_ne_bytes([byte; 8])
}

/// The eight bytes of a line from a place on, the first of them lowest.
#[inline(always)]
fn eight(line: &[u8; LINE], place: usize) -> u64 {
    u64::from_le_bytes(line[place..place + 8].try_into().expect("eight bytes"))
}

#[inline(always)]
fn four(line: &[u8; LINE], place: usize) -> u32 {
    u32::from_le_bytes(line[place..place + 4].try_into().expect("four bytes"))
}

/// The digits of a word of one field, or of two in its halves: spaces at the start count as zeros, but for those in `last`, where a digit has to stand. The bytes
/// that are no digits have a bit in the second word.
#[inline(always)]
fn digits(word: u64, low: u64, last: u64) -> (u64, u64) {
    let other = word ^ in_each(b' ');
    // The bits below the lowest one that tells a byte from a space: a space becomes a zero by its bit 4.
    let spaces = !other & other.wrapping_sub(low) & in_each(16) & !last;
    let digits = (word | spaces) ^ in_each(b'0');
    (digits, (digits.wrapping_add(in_each(6)) | digits) & in_each(0xf0))
}

/// Where a digit after spaces is a zero, and not the last one: bit 4 of the byte.
#[inline(always)]
fn padding(word: u64, first: u64, last: u64) -> u64 {
    let digits = word & in_each(16);
    let after_space = !(digits << 8) | first;
    let not_zero = (word & in_each(15)) + in_each(15);
    digits & after_space & !not_zero & !last
}

/// The number in a filled field of a station file.
#[inline(always)]
fn number(line: &[u8; LINE], field: usize) -> u32 {
    number_in::<true>(line, field)
}

/// The number in a filled field of a route file or a log.
#[inline(always)]
pub(crate) fn old_number(line: &[u8; LINE], field: usize) -> u32 {
    number_in::<false>(line, field)
}

/// The number in a filled field; `ZEROS` allows zeros before it.
#[inline(always)]
fn number_in<const ZEROS: bool>(line: &[u8; LINE], field: usize) -> u32 {
    const LAST: u64 = 0xff << 56;
    // Three spaces, then the field.
    let before = if field == 0 { eight(line, 0) << 16 } else { eight(line, 5 * field - 2) };
    let word = before & !0 << 24 | in_each(b' ') >> 40;
    let (digits, mut wrong) = digits(word, 1, LAST);
    if !ZEROS {
        wrong |= padding(word, 0, LAST);
    }
    if wrong != 0 {
        return MALFORMED;
    }
    let [first, rest] = fours(digits);
    10_000 * first + rest
}

/// The numbers of four digits in each half of a word.
#[inline(always)]
fn fours(digits: u64) -> [u32; 2] {
    let twos = (10 * digits + (digits >> 8)) & 0x00ff_00ff_00ff_00ff;
    let fours = twos.wrapping_mul(100 << 16 | 1);
    [fours as u32 >> 16, (fours >> 48) as u32]
}

/// The numbers in two fields, one beside the other, both filled.
#[inline(always)]
fn numbers(line: &[u8; LINE], field: usize) -> [u32; 2] {
    numbers_in::<true>(line, field)
}

#[inline(always)]
pub(crate) fn old_numbers(line: &[u8; LINE], field: usize) -> [u32; 2] {
    numbers_in::<false>(line, field)
}

/// Most numbers have at most four digits: the last four bytes of each field are then one half of a word.
#[inline(always)]
fn numbers_in<const ZEROS: bool>(line: &[u8; LINE], field: usize) -> [u32; 2] {
    const LAST: u64 = 0xff00_0000_ff00_0000;
    let start = 1 + 5 * field;
    if line[start] == b' ' && line[start + 5] == b' ' {
        let word = u64::from(four(line, start + 1)) | u64::from(four(line, start + 6)) << 32;
        let (digits, mut wrong) = digits(word, 1 << 32 | 1, LAST);
        if !ZEROS {
            wrong |= padding(word, 16 << 32 | 16, LAST);
        }
        return if wrong == 0 { fours(digits) } else { [MALFORMED; 2] };
    }
    long_numbers::<ZEROS>(line, field)
}

#[cold]
#[inline(never)]
fn long_numbers<const ZEROS: bool>(line: &[u8; LINE], field: usize) -> [u32; 2] {
    [number_in::<ZEROS>(line, field), number_in::<ZEROS>(line, field + 1)]
}

const BLANKS: [u8; LINE] = *b"                     \n";

/// Whether a line has the letter, blanks from a place on, and a line feed.
#[inline(always)]
pub(crate) fn framed(line: &[u8; LINE], letter: u8, blank_from: usize) -> bool {
    line[0] == letter && line[blank_from..] == BLANKS[blank_from..]
}

/// How many fields of a T line of a U file stand before the first blank one, the first field aside.
#[inline(always)]
fn filled(line: &[u8; LINE]) -> usize {
    (1..4).find(|field| line[1 + 5 * field..6 + 5 * field] == *b"     ").unwrap_or(4)
}

/// The sections of a T line with so many, 0 past them; `None` where the line is not of that form.
#[inline(always)]
fn train<const SIZE: usize>(line: &[u8; LINE]) -> Option<[u32; 4]> {
    let mut fields = [0; 4];
    for (place, field) in fields[..SIZE].iter_mut().enumerate() {
        *field = number(line, place);
    }
    (framed(line, b'T', 1 + 5 * SIZE) && !fields.contains(&MALFORMED)).then_some(fields)
}

/// Whether some of the first sections, at most four, come twice.
#[inline(always)]
fn some_twice(sections: &[u32]) -> bool {
    (1..sections.len()).any(|place| sections[..place].contains(&sections[place]))
}

/// The sections of a train, counted from 0.
#[inline(always)]
pub(crate) fn standing(s: &Situation, train: usize) -> &[u16] {
    &s.train_section[4 * train..][..usize::from(s.train_size[train]).min(4)]
}

#[inline(always)]
pub(crate) fn outside(section: u32, sections: u32) -> bool {
    section.wrapping_sub(1) >= sections
}

/// Writes one line; fields past the given ones are blank.
#[inline(always)]
pub(crate) fn put_line<const FILLED: usize>(line: &mut [u8], letter: u8, fields: [u32; FILLED]) {
    line[..LINE].copy_from_slice(&BLANKS);
    line[0] = letter;
    for (place, mut value) in fields.into_iter().enumerate() {
        let mut at = 5 + 5 * place;
        loop {
            line[at] = b'0' + (value % 10) as u8;
            value /= 10;
            if value == 0 {
                break;
            }
            at -= 1;
        }
    }
}

// ---- reader and writer

/// The pairs that lines stand over, and whether one stands under a signal and a turnout.
pub(crate) struct Taken {
    /// Two bits for each pair: a P line or a signal stands over it, a P line or a turnout does.
    pairs: [u64; 2 * 512 * 8],
    shared: bool,
}

const BY_SIGNAL: u64 = 1;
const BY_TURNOUT: u64 = 2;

impl Taken {
    pub(crate) const NONE: Taken = Taken { pairs: [0; 2 * 512 * 8], shared: false };

    /// Whether a line stands over a pair of sections, counted from 0.
    pub(crate) fn over(&self, from: usize, to: usize) -> bool {
        let pair = from << 9 | to;
        self.pairs[pair / 32] >> (2 * (pair % 32)) & 3 != 0
    }

    #[inline(always)]
    fn plain(&mut self, from: u32, to: u32) -> bool {
        self.take(BY_SIGNAL | BY_TURNOUT, from, to) == 0
    }

    #[inline(always)]
    fn signal(&mut self, from: u32, to: u32) -> bool {
        let before = self.take(BY_SIGNAL, from, to);
        self.shared |= before != 0;
        before & BY_SIGNAL == 0
    }

    #[inline(always)]
    fn turnout(&mut self, stem: u32, straight: u32, diverted: u32) -> bool {
        let pairs = [(stem, straight), (straight, stem), (stem, diverted), (diverted, stem)];
        let before = pairs.into_iter().fold(0, |before, (from, to)| before | self.take(BY_TURNOUT, from, to));
        self.shared |= before != 0;
        before & BY_TURNOUT == 0
    }

    /// Takes an ordered pair of sections, counted from 1, and gives by what it was taken before.
    #[inline(always)]
    fn take(&mut self, by: u64, from: u32, to: u32) -> u64 {
        let pair = ((from - 1) as usize & 511) << 9 | (to - 1) as usize & 511;
        let (word, place) = (&mut self.pairs[pair / 32], 2 * (pair % 32));
        let before = *word >> place & 3;
        *word |= by << place;
        before
    }
}

/// The cause that a well-formed element line with a wrong number is refused for.
#[cold]
fn element_cause(over: &[u32], sections: u32) -> u16 {
    if over.iter().any(|&section| outside(section, sections)) {
        5
    } else if some_twice(over) {
        7
    } else {
        6
    }
}

/// Reads a file into a situation of zeros, and takes the pairs that its lines stand over. After a refusal both may hold anything.
#[inline(always)]
pub(crate) fn read_taking(file: &[u8], situation: &mut Situation, taken: &mut Taken) -> Refusal {
    let (lines, rest) = file.as_chunks::<LINE>();
    if lines.is_empty() || !rest.is_empty() || file.len() > MOST_BYTES {
        return refusal(1, 0);
    }
    let head = &lines[0];
    let ([sections, plain], [elements, trains]) = (numbers(head, 0), numbers(head, 2));
    let long = head[0] == b'U';
    if !framed(head, if long { b'U' } else { b'S' }, 21) || [sections, plain, elements, trains].contains(&MALFORMED) {
        return refusal(2, 1);
    }
    if outside(sections, 512) || plain > 1024 || elements > 256 || trains > 64 {
        return refusal(3, 1);
    }
    if lines.len() != (1 + plain + elements + trains) as usize {
        return refusal(4, 1);
    }
    situation.sections = sections as u16;
    situation.plain = plain as u16;
    situation.elements = elements as u16;
    situation.trains = trains as u16;
    situation.is_long = u8::from(long);
    let (plain_lines, later) = lines[1..].split_at(plain as usize);
    let (element_lines, train_lines) = later.split_at(elements as usize);

    for (place, line) in plain_lines.iter().enumerate() {
        let [from, to] = numbers(line, 0);
        // What is malformed is outside too.
        if !framed(line, b'P', 11) || outside(from, sections) || outside(to, sections) || from == to {
            let malformed = !framed(line, b'P', 11) || from == MALFORMED || to == MALFORMED;
            return refusal(
                if malformed {
                    2
                } else if outside(from, sections) || outside(to, sections) {
                    5
                } else {
                    7
                },
                place + 2,
            );
        }
        if !taken.plain(from, to) {
            return refusal(8, place + 2);
        }
        situation.plain_from[place] = from as u16;
        situation.plain_to[place] = to as u16;
    }

    for (place, line) in element_lines.iter().enumerate() {
        let at = place + plain as usize + 2;
        let [first, second] = numbers(line, 0);
        let apart = first != second && !outside(first, sections) && !outside(second, sections);
        if line[0] == b'D' {
            let [third, state] = numbers(line, 2);
            if !framed(line, b'D', 21) || !apart || outside(third, sections) || first == third || second == third || state > 2 {
                let malformed = !framed(line, b'D', 21) || [first, second, third, state].contains(&MALFORMED);
                return refusal(if malformed { 2 } else { element_cause(&[first, second, third], sections) }, at);
            }
            if !taken.turnout(first, second, third) {
                return refusal(8, at);
            }
            situation.is_turnout[place] = 1;
            situation.element_third[place] = third as u16;
            situation.element_state[place] = state as u8;
        } else {
            let state = number(line, 2);
            if !framed(line, b'L', 16) || !apart || state > 2 {
                let malformed = !framed(line, b'L', 16) || [first, second, state].contains(&MALFORMED);
                return refusal(if malformed { 2 } else { element_cause(&[first, second], sections) }, at);
            }
            if !taken.signal(first, second) {
                return refusal(8, at);
            }
            situation.element_state[place] = state as u8;
        }
        situation.element_first[place] = first as u16;
        situation.element_second[place] = second as u16;
    }

    if long {
        for (place, line) in train_lines.iter().enumerate() {
            let at = place + (plain + elements) as usize + 2;
            let size = filled(line);
            let fields = match size {
                1 => train::<1>(line),
                2 => train::<2>(line),
                3 => train::<3>(line),
                _ => train::<4>(line),
            };
            let Some(fields) = fields else {
                return refusal(2, at);
            };
            if fields[..size].iter().any(|&section| outside(section, sections)) {
                return refusal(5, at);
            }
            if some_twice(&fields[..size]) {
                return refusal(7, at);
            }
            situation.train_size[place] = size as u8;
            situation.train_section[4 * place..][..4].copy_from_slice(&fields.map(|section| section as u16));
        }
        return Refusal::NONE;
    }
    for (place, line) in train_lines.iter().enumerate() {
        let at = place + (plain + elements) as usize + 2;
        let section = number(line, 0);
        if !framed(line, b'T', 6) || section == MALFORMED {
            return refusal(2, at);
        }
        if outside(section, sections) {
            return refusal(5, at);
        }
        situation.train_size[place] = 1;
        situation.train_section[4 * place] = section as u16;
    }
    Refusal::NONE
}

/// The refusal, and whether some pair stands under a signal and a turnout.
fn read_into(file: &[u8], situation: &mut Situation) -> (Refusal, bool) {
    let mut taken = Taken::NONE;
    let refused = read_taking(file, situation, &mut taken);
    (refused, taken.shared)
}

pub fn read(file: &[u8]) -> Reading {
    let mut reading = Reading { refusal: Refusal::NONE, situation: Situation::ZEROS };
    reading.refusal = read_into(file, &mut reading.situation).0;
    if reading.refusal != Refusal::NONE {
        reading.situation = Situation::ZEROS;
    }
    reading
}

/// The first refusal of values, the buffer's length aside.
fn values_refusal(s: &Situation) -> Refusal {
    let sections = u32::from(s.sections);
    if outside(sections, 512) || s.plain > 1024 || s.elements > 256 || s.trains > 64 {
        return refusal(3, 1);
    }
    let (plain, elements, trains) = (usize::from(s.plain), usize::from(s.elements), usize::from(s.trains));
    let mut taken = Taken::NONE;
    for (place, (&from, &to)) in s.plain_from[..plain].iter().zip(&s.plain_to[..plain]).enumerate() {
        let (from, to) = (u32::from(from), u32::from(to));
        if outside(from, sections) || outside(to, sections) {
            return refusal(5, place + 2);
        }
        if from == to {
            return refusal(7, place + 2);
        }
        if !taken.plain(from, to) {
            return refusal(8, place + 2);
        }
    }
    for place in 0..elements {
        let at = place + plain + 2;
        let turnout = s.is_turnout[place] != 0;
        let [first, second, third] = [s.element_first[place], s.element_second[place], s.element_third[place]].map(u32::from);
        if outside(first, sections) || outside(second, sections) || (turnout && outside(third, sections)) {
            return refusal(5, at);
        }
        if first == second || (turnout && (first == third || second == third)) {
            return refusal(7, at);
        }
        if s.element_state[place] > 2 {
            return refusal(6, at);
        }
        let free = if turnout { taken.turnout(first, second, third) } else { taken.signal(first, second) };
        if !free {
            return refusal(8, at);
        }
    }
    let most = if s.is_long != 0 { 4 } else { 1 };
    for place in 0..trains {
        let at = place + plain + elements + 2;
        let size = usize::from(s.train_size[place]);
        if size == 0 || size > most {
            return refusal(2, at);
        }
        let mut fields = [0; 4];
        for (field, &section) in fields.iter_mut().zip(standing(s, place)) {
            *field = u32::from(section);
        }
        if fields[..size].iter().any(|&section| outside(section, sections)) {
            return refusal(5, at);
        }
        if some_twice(&fields[..size]) {
            return refusal(7, at);
        }
    }
    Refusal::NONE
}

/// What is handed back of a text: the sum of its digits is one pass over its bytes, which the compiler takes many at once.
fn output(text: &[u8]) -> Output {
    let subtractions = text.iter().map(|&byte| if byte.is_ascii_digit() { u32::from(byte - b'0') } else { 0 }).sum();
    Output { refusal: Refusal::NONE, length: text.len(), subtractions }
}

fn refused_output(refusal: Refusal) -> Output {
    Output { refusal, length: 0, subtractions: 0 }
}

pub fn write(s: &Situation, buffer: &mut [u8]) -> Output {
    let refused = values_refusal(s);
    if refused != Refusal::NONE {
        return refused_output(refused);
    }
    let (plain, elements, trains) = (usize::from(s.plain), usize::from(s.elements), usize::from(s.trains));
    let Some(text) = buffer.get_mut(..LINE * (1 + plain + elements + trains)) else {
        return refused_output(refusal(9, 0));
    };
    let (lines, _) = text.as_chunks_mut::<LINE>();
    put_line(&mut lines[0], if s.is_long != 0 { b'U' } else { b'S' }, [s.sections, s.plain, s.elements, s.trains].map(u32::from));
    let (plain_lines, later) = lines[1..].split_at_mut(plain);
    let (element_lines, train_lines) = later.split_at_mut(elements);
    for (line, (&from, &to)) in plain_lines.iter_mut().zip(s.plain_from.iter().zip(&s.plain_to)) {
        put_line(line, b'P', [from, to].map(u32::from));
    }
    for (place, line) in element_lines.iter_mut().enumerate() {
        let (first, second, state) = (s.element_first[place], s.element_second[place], u16::from(s.element_state[place]));
        if s.is_turnout[place] != 0 {
            put_line(line, b'D', [first, second, s.element_third[place], state].map(u32::from));
        } else {
            put_line(line, b'L', [first, second, state].map(u32::from));
        }
    }
    for (place, line) in train_lines.iter_mut().enumerate() {
        match *standing(s, place) {
            [a] => put_line(line, b'T', [a].map(u32::from)),
            [a, b] => put_line(line, b'T', [a, b].map(u32::from)),
            [a, b, c] => put_line(line, b'T', [a, b, c].map(u32::from)),
            [a, b, c, d] => put_line(line, b'T', [a, b, c, d].map(u32::from)),
            _ => unreachable!("a train has one to four sections"),
        }
    }
    output(text)
}

// ---- moves and reach

/// Goes through the pairs that an element stands over, each with whether it permits it in a state.
#[inline(always)]
pub(crate) fn each_pair(s: &Situation, place: usize, state: u8, mut see: impl FnMut(u16, u16, bool)) {
    let (first, second, third) = (s.element_first[place], s.element_second[place], s.element_third[place]);
    see(first, second, state == 1);
    if s.is_turnout[place] != 0 {
        see(second, first, state == 1);
        see(first, third, state == 2);
        see(third, first, state == 2);
    }
}

/// Goes through the moves that the fixed elements and the plain lines permit, each once; sections count from 0. An open element permits nothing. Where a
/// pair stands under two elements, each takes away what it forbids.
#[inline(always)]
pub(crate) fn each_fixed_move(s: &Situation, shared: bool, mut see: impl FnMut(usize, usize)) {
    let plain = usize::from(s.plain);
    for (&from, &to) in s.plain_from[..plain].iter().zip(&s.plain_to[..plain]) {
        see(usize::from(from - 1) & 511, usize::from(to - 1) & 511);
    }
    let elements = 0..usize::from(s.elements);
    if !shared {
        for place in elements {
            each_pair(s, place, s.element_state[place], |from, to, permitted| {
                if permitted {
                    see(usize::from(from - 1) & 511, usize::from(to - 1) & 511);
                }
            });
        }
        return;
    }
    // A bit for each pair that some element forbids, or that was seen.
    let mut closed = [0u64; 512 * 512 / 64];
    for wanted in [false, true] {
        for place in elements.clone() {
            each_pair(s, place, s.element_state[place], |from, to, permitted| {
                let (from, to) = (usize::from(from - 1) & 511, usize::from(to - 1) & 511);
                let (word, bit) = (&mut closed[(from << 9 | to) / 64], 1 << (to % 64));
                if permitted == wanted && *word & bit == 0 {
                    *word |= bit;
                    if permitted {
                        see(from, to);
                    }
                }
            });
        }
    }
}

/// At most 1,024 plain moves, and two for each element.
const MOST_LINKS: usize = 1024 + 2 * 256;

/// The fixed moves by section: the first link of each one, numbered from 1, and 0 behind the last.
pub(crate) struct Links {
    pub(crate) first: [u16; 512],
    pub(crate) next: [u16; MOST_LINKS + 1],
    pub(crate) section: [u16; MOST_LINKS + 1],
}

impl Links {
    /// The moves that leave each section; with `BACK`, those that lead to it.
    #[inline(always)]
    pub(crate) fn of<const BACK: bool>(s: &Situation, shared: bool) -> Links {
        let mut links = Links { first: [0; 512], next: [0; MOST_LINKS + 1], section: [0; MOST_LINKS + 1] };
        let mut link = 0;
        each_fixed_move(s, shared, |from, to| {
            let (here, there) = if BACK { (to, from) } else { (from, to) };
            link += 1;
            links.section[link] = there as u16;
            links.next[link] = links.first[here];
            links.first[here] = link as u16;
        });
        links
    }
}

/// Sections as one train after another reaches them.
struct Search {
    /// The first train that reaches each section, counted from 1; 0 where none does.
    owner: [u8; 512],
    /// The section before each; that of a train has itself.
    before: [u16; 512],
    found: [u16; 512],
    entries: usize,
    looks: u32,
}

impl Search {
    const NONE: Search = Search { owner: [0; 512], before: [0; 512], found: [0; 512], entries: 0, looks: 0 };

    /// Adds what a train reaches; false, and some of it added, where that is another's.
    #[inline(always)]
    fn add(&mut self, links: &Links, train: u8, starts: &[u16]) -> bool {
        let mut place = self.entries;
        for &start in starts {
            let start = usize::from(start - 1) & 511;
            if self.owner[start] != 0 {
                return false;
            }
            self.own(train, start, start);
        }
        while place < self.entries {
            let section = usize::from(self.found[place & 511]);
            place += 1;
            let mut link = usize::from(links.first[section & 511]);
            while link != 0 {
                self.looks += 1;
                let next = usize::from(links.section[link]) & 511;
                if self.owner[next] == 0 {
                    self.own(train, section, next);
                } else if self.owner[next] != train {
                    return false;
                }
                link = usize::from(links.next[link]);
            }
        }
        true
    }

    #[inline(always)]
    fn own(&mut self, train: u8, before: usize, section: usize) {
        self.owner[section] = train;
        self.before[section] = before as u16;
        self.found[self.entries & 511] = section as u16;
        self.entries += 1;
    }

    /// Writes the path to a section to the start of a list, and gives its length.
    fn path(&self, end: usize, list: &mut [u16]) -> usize {
        let before = |section: usize| usize::from(self.before[section & 511]);
        let mut length = 1;
        let mut section = end;
        while before(section) != section {
            section = before(section);
            length += 1;
        }
        section = end;
        for entry in list[..length].iter_mut().rev() {
            *entry = section as u16 + 1;
            section = before(section);
        }
        length
    }
}

// ---- verdict

/// A refused verdict, its refusal aside; also what every answer starts from.
const ALL_ZEROS: VerdictAnswer = VerdictAnswer::refused(Refusal::NONE);

/// The line of the open element after so many others.
fn open_line(s: &Situation, others: usize) -> Option<usize> {
    let open = s.element_state[..usize::from(s.elements)].iter().enumerate().filter(|(_, state)| **state == 0);
    open.map(|(place, _)| place + usize::from(s.plain) + 2).nth(others)
}

pub fn verdict(file: &[u8], first: &mut [u16], second: &mut [u16]) -> VerdictAnswer {
    let mut situation = Situation::ZEROS;
    let (refused, shared) = read_into(file, &mut situation);
    if refused != Refusal::NONE {
        return VerdictAnswer { refusal: refused, ..ALL_ZEROS };
    }
    if let Some(line) = open_line(&situation, 0) {
        return VerdictAnswer { refusal: refusal(10, line), ..ALL_ZEROS };
    }
    let sections = usize::from(situation.sections);
    if first.len() < sections || second.len() < sections {
        return VerdictAnswer { refusal: refusal(9, 0), ..ALL_ZEROS };
    }
    judge(&situation, shared, first, second)
}

/// The verdict of an accepted situation, with long enough lists. Up to the train that meets another one no section is reached twice, so that all these
/// trains are one search; that train has one of its own.
fn judge(situation: &Situation, shared: bool, first: &mut [u16], second: &mut [u16]) -> VerdictAnswer {
    let links = Links::of::<false>(situation, shared);
    let mut earlier = Search::NONE;
    let mut answer = ALL_ZEROS;
    for train in 0..usize::from(situation.trains) {
        let (entries, looks) = (earlier.entries, earlier.looks);
        let number = train as u8 + 1;
        if earlier.add(&links, number, standing(situation, train)) {
            continue;
        }
        let mut later = Search::NONE;
        later.add(&links, number, standing(situation, train));
        let (mut met, mut meeting) = (number, 0);
        for &section in &later.found[..later.entries] {
            let owner = earlier.owner[usize::from(section) & 511];
            if owner != 0 && (owner < met || owner == met && owner < number && section < meeting) {
                (met, meeting) = (owner, section);
            }
        }
        answer.dangerous = 1;
        answer.first_train = u16::from(met);
        answer.second_train = u16::from(number);
        answer.meeting = meeting + 1;
        answer.first_length = earlier.path(usize::from(meeting), first);
        answer.second_length = later.path(usize::from(meeting), second);
        answer.entries = (entries + later.entries) as u32;
        answer.looks = looks + later.looks;
        return answer;
    }
    answer.entries = earlier.entries as u32;
    answer.looks = earlier.looks;
    answer
}

// ---- settings

/// The reply for an accepted situation, with a long enough buffer.
fn reply(s: &Situation, shared: bool, buffer: &mut [u8]) -> SettingsAnswer {
    let Some(trial) = Trial::of(s, shared) else {
        return SettingsAnswer { refusal: Refusal::NONE, safe: 0, proceed: 0 };
    };
    let choice = trial.choose();
    if choice.safe > 0 {
        let mut element = 0;
        for (entry, &state) in buffer.iter_mut().zip(&s.element_state[..usize::from(s.elements)]) {
            *entry = state;
            if state == 0 {
                *entry = trial.state(choice.setting, element);
                element += 1;
            }
        }
    }
    SettingsAnswer { refusal: Refusal::NONE, safe: choice.safe, proceed: choice.proceed as u16 }
}

pub fn settings(file: &[u8], buffer: &mut [u8]) -> SettingsAnswer {
    let mut situation = Situation::ZEROS;
    let (mut refused, shared) = read_into(file, &mut situation);
    if refused == Refusal::NONE {
        if let Some(line) = open_line(&situation, MOST_OPEN) {
            refused = refusal(11, line);
        } else if buffer.len() < usize::from(situation.elements) {
            refused = refusal(9, 0);
        }
    }
    if refused != Refusal::NONE {
        return SettingsAnswer { refusal: refused, safe: 0, proceed: 0 };
    }
    reply(&situation, shared, buffer)
}

// ---- can it be saved at all?

/// Whether some setting is safe: 1 or 0. Open signals stay at stop, so that only the turnouts are left open.
pub fn can_be_safe(file: &[u8]) -> YesNo {
    let mut situation = Situation::ZEROS;
    let (refused, shared) = read_into(file, &mut situation);
    if refused != Refusal::NONE {
        return YesNo { refusal: refused, yes: 0 };
    }
    let elements = usize::from(situation.elements);
    for (state, &turnout) in situation.element_state[..elements].iter_mut().zip(&situation.is_turnout[..elements]) {
        if *state == 0 && turnout == 0 {
            *state = 2;
        }
    }
    if let Some(line) = open_line(&situation, MOST_OPEN) {
        return YesNo { refusal: refusal(11, line), yes: 0 };
    }
    let saved = Trial::of(&situation, shared).is_some_and(|trial| trial.some_safe());
    YesNo { refusal: Refusal::NONE, yes: u16::from(saved) }
}

// ---- key

pub fn key(file: &[u8], buffer: &mut [u8]) -> Output {
    if buffer.len() < LONGEST_KEY {
        return refused_output(refusal(9, 0));
    }
    let length = LINE * key_lines(file, buffer);
    output(&buffer[..length])
}

/// Writes the key to a long enough buffer and gives the number of its lines.
fn key_lines(file: &[u8], buffer: &mut [u8]) -> usize {
    let (lines, _) = buffer.as_chunks_mut::<LINE>();
    let mut situation = Situation::ZEROS;
    let (mut refused, shared) = read_into(file, &mut situation);
    if refused == Refusal::NONE
        && let Some(line) = open_line(&situation, MOST_OPEN)
    {
        refused = refusal(11, line);
    }
    if refused != Refusal::NONE {
        put_line(&mut lines[0], b'R', [refused.number, refused.line].map(u32::from));
        return 1;
    }
    if open_line(&situation, 0).is_none() {
        let (mut first, mut second) = ([0; 512], [0; 512]);
        let answer = judge(&situation, shared, &mut first, &mut second);
        if answer.dangerous == 0 {
            put_line(&mut lines[0], b'V', [0, answer.entries, answer.looks]);
            return 1;
        }
        put_line(&mut lines[0], b'V', [1, answer.entries, answer.looks, u32::from(answer.meeting)]);
        let (first, second) = (&first[..answer.first_length], &second[..answer.second_length]);
        for (line, &section) in lines[1..].iter_mut().zip(first) {
            put_line(line, b'A', [answer.first_train, section].map(u32::from));
        }
        for (line, &section) in lines[1 + first.len()..].iter_mut().zip(second) {
            put_line(line, b'B', [answer.second_train, section].map(u32::from));
        }
        return 1 + first.len() + second.len();
    }
    let mut setting = [0; 256];
    let answer = reply(&situation, shared, &mut setting);
    let safe = u32::from(answer.safe);
    put_line(&mut lines[0], b'Q', [u32::from(safe > 0), safe, u32::from(answer.proceed)]);
    if safe == 0 {
        return 1;
    }
    let elements = usize::from(situation.elements);
    for (place, (line, &state)) in lines[1..].iter_mut().zip(&setting[..elements]).enumerate() {
        put_line(line, b'E', [place as u32 + 1, u32::from(state)]);
    }
    1 + elements
}

/// The fast program as a subject of the comparison with the oracle.
pub struct Fast;

impl Subject for Fast {
    fn read(&self, file: &[u8]) -> Reading {
        read(file)
    }

    fn write(&self, situation: &Situation, buffer: &mut [u8]) -> Output {
        write(situation, buffer)
    }

    fn verdict(&self, file: &[u8], first: &mut [u16], second: &mut [u16]) -> VerdictAnswer {
        verdict(file, first, second)
    }

    fn settings(&self, file: &[u8], buffer: &mut [u8]) -> SettingsAnswer {
        settings(file, buffer)
    }

    fn key(&self, file: &[u8], buffer: &mut [u8]) -> Output {
        key(file, buffer)
    }
}

#[cfg(test)]
mod checks {
    use super::*;
    use oracle::compare::{Tally, compare};
    use oracle::{generate, law};

    /// The fast program agrees with the oracle. `FILES=20000 cargo test --release` tries more files.
    #[test]
    fn agrees_with_the_oracle() {
        let files = std::env::var("FILES").ok().and_then(|number| number.parse().ok()).unwrap_or(500);
        let mut tally = Tally::default();
        for index in 0..files {
            let case = generate::case(index);
            if let Err(difference) = compare(&Fast, &case.file, index, &mut tally) {
                panic!("file {index} ({}): {difference}", case.made);
            }
        }
        println!("{files} files, {} comparisons, 0 differences", tally.comparisons);
    }

    /// It says yes where one of all the settings is safe.
    #[test]
    fn saves_what_can_be_saved() {
        for index in 0..500 {
            let file = generate::case(index).file;
            if let Ok(situation) = law::read(&file)
                && situation.elements.iter().filter(|element| element.is_open()).count() <= 8
            {
                let over = law::over(&situation);
                let safe = law::all_settings(&situation).iter().any(|setting| law::is_safe(&situation, &over, setting));
                assert_eq!(can_be_safe(&file), YesNo { refusal: Refusal::NONE, yes: u16::from(safe) }, "file {index}");
            }
        }
    }
}
