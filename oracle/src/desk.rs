//! The push-button desk (02, Item 10) in plain Rust, written from the request alone, and the comparison of the library with it.
//!
//! The request is followed twice: [`Model`] goes write by write, and [`said`] reads off a whole list what each element and both bits have to
//! be, from its last entry backwards.

use judge::ffi::{self, Desk, DeskByte, Refusal};
use oracle::generate;
use oracle::law;
use oracle::random::Random;

/// So many files, and so many desks that no start gave.
const FILES: u64 = 5_000;
const DESKS: u64 = 5_000;
/// The longest list of writes.
const LONGEST: u32 = 300;

const ADDRESS: Refusal = Refusal { number: 20, line: 0 };

/// The bytes at addresses 0 to 4, and the elements: in the file, and now.
#[derive(Clone)]
struct Model {
    bytes: [u8; 5],
    file: Vec<u8>,
    now: Vec<u8>,
}

impl Model {
    /// "All start at 0."
    fn start(file: Vec<u8>) -> Model {
        Model { bytes: [0; 5], now: file.clone(), file }
    }

    fn of(desk: &Desk) -> Model {
        let count = usize::from(desk.elements).min(256);
        Model {
            bytes: [desk.control, desk.status, desk.number_low, desk.number_high, desk.state],
            file: desk.file_state[..count].to_vec(),
            now: desk.element_state[..count].to_vec(),
        }
    }

    /// The place of the element that command 1 sets: "if it was open in the file and the state is 1 or 2".
    fn settable(&self) -> Option<usize> {
        let number = usize::from(u16::from_le_bytes([self.bytes[2], self.bytes[3]]));
        let place = number.checked_sub(1)?;
        (self.file.get(place) == Some(&0) && matches!(self.bytes[4], 1 | 2)).then_some(place)
    }

    fn write(&mut self, address: u16, byte: u8) -> Refusal {
        match address {
            0 | 2 | 3 | 4 => self.bytes[usize::from(address)] = byte,
            1 => (),
            5 => match (byte, self.settable()) {
                (1, Some(place)) => {
                    self.now[place] = self.bytes[4];
                    self.bytes[1] = 0b01;
                }
                (1, None) => self.bytes[1] = 0b10 | (self.bytes[1] & 0b01),
                (2, _) => self.bytes[1] = 0,
                _ => (),
            },
            _ => return ADDRESS,
        }
        Refusal::NONE
    }

    fn read(&self, address: u16) -> DeskByte {
        let byte = match address {
            1 => self.bytes[1] & 0b11,
            0 | 2 | 3 | 4 => self.bytes[usize::from(address)],
            5 => 0,
            _ => return DeskByte { refusal: ADDRESS, byte: 0 },
        };
        DeskByte { refusal: Refusal::NONE, byte: u16::from(byte) }
    }

    fn interrupt(&self) -> u16 {
        u16::from(self.bytes[0] & 1 == 1 && self.bytes[1] & 1 == 1)
    }
}

/// What a list of writes after a start says of the elements and of the status byte.
fn said(file: &[u8], list: &[(u16, u8)]) -> (Vec<u8>, u8) {
    let last = |end: usize, address: u16| list[..end].iter().rev().find(|write| write.0 == address).map_or(0, |write| write.1);
    // A set: the element's number and its state, and whether it succeeded.
    let set = |place: usize| {
        let (number, state) = (usize::from(last(place, 2)) + 256 * usize::from(last(place, 3)), last(place, 4));
        (number, state, number >= 1 && number <= file.len() && file[number - 1] == 0 && (state == 1 || state == 2))
    };
    let sets: Vec<usize> = (0..list.len()).filter(|&place| list[place] == (5, 1)).collect();
    let cleared = list.iter().rposition(|&write| write == (5, 2));
    let after = |place: usize| cleared.is_none_or(|clear| clear < place);
    let elements = (1..=file.len()).map(|element| {
        let found = sets.iter().rev().map(|&place| set(place)).find(|&(number, _, succeeded)| succeeded && number == element);
        found.map_or(file[element - 1], |(_, state, _)| state)
    });
    let pending = sets.iter().any(|&place| after(place) && set(place).2);
    let failed = sets.last().is_some_and(|&place| after(place) && !set(place).2);
    (elements.collect(), u8::from(pending) + 2 * u8::from(failed))
}

/// A write that is likely to do something.
fn write(random: &mut Random, elements: usize) -> (u16, u8) {
    let near = (elements as u32 + 2).min(255);
    match random.between(0, 19) {
        0..=4 => (2, if random.once_in(8) { random.byte() } else { random.between(0, near) as u8 }),
        5 => (3, if random.once_in(3) { 1 } else { 0 }),
        6..=8 => (4, random.between(0, 3) as u8),
        9..=13 => (5, random.pick(&[1, 1, 1, 1, 1, 2, 0, 3])),
        14 => (0, random.byte()),
        15 => (1, random.byte()),
        16 => (random.pick(&[6, 7, 255, 256, 257, 261, 512, 1280, u16::MAX]), random.byte()),
        17 => (random.between(0, 7) as u16, random.byte()),
        18 => (random.between(0, 65_535) as u16, random.byte()),
        _ => (random.between(2, 5) as u16, 1),
    }
}

/// What a desk shows has to be what the model has; the rest of the desk has to be what it was.
fn same(desk: &Desk, before: &Desk, model: &Model) -> Result<(), String> {
    for address in [0, 1, 2, 3, 4, 5, 6, 255, 256, u16::MAX] {
        let (given, wanted) = (ffi::desk_read(*desk, address), model.read(address));
        if given != wanted {
            return Err(format!("address {address} reads {given:?} in place of {wanted:?}"));
        }
    }
    if ffi::desk_interrupt(*desk) != model.interrupt() {
        return Err(format!("the interrupt is {}", ffi::desk_interrupt(*desk)));
    }
    let count = model.now.len();
    if desk.element_state[..count] != model.now[..] {
        return Err(format!("the elements are {:?} in place of {:?}", &desk.element_state[..count], model.now));
    }
    if desk.element_state[count..] != before.element_state[count..]
        || desk.file_state != before.file_state
        || desk.elements != before.elements
    {
        return Err("something changed that no write changes".to_string());
    }
    Ok(())
}

/// Writes a list, and compares after each write. Gives how many comparisons there were.
fn follow(random: &mut Random, mut desk: Desk, model: &mut Model, list: &mut Vec<(u16, u8)>) -> Result<u64, String> {
    for _ in 0..random.between(0, LONGEST) {
        let (address, byte) = write(random, model.file.len());
        list.push((address, byte));
        let at = |what: String| format!("after the writes {list:?}: {what}");
        let answer = ffi::desk_write(desk, address, byte);
        let refusal = model.write(address, byte);
        if answer.refusal != refusal {
            return Err(at(format!("{:?} in place of {refusal:?}", answer.refusal)));
        }
        if refusal != Refusal::NONE && answer.desk != desk {
            return Err(at("a refused write changed the desk".to_string()));
        }
        same(&answer.desk, &desk, model).map_err(at)?;
        desk = answer.desk;
    }
    Ok(list.len() as u64)
}

/// The desk of a file, and a list of writes after it.
fn compare_file(index: u64) -> Result<u64, String> {
    let file = generate::case(index).file;
    let start = ffi::desk_start(&file);
    let zeros =
        Desk { control: 0, status: 0, number_low: 0, number_high: 0, state: 0, elements: 0, file_state: [0; 256], element_state: [0; 256] };
    match law::read(&file) {
        Err(refusal) => {
            if start.refusal == refusal && start.desk == zeros {
                Ok(1)
            } else {
                Err(format!("a start in place of {refusal:?}: {start:?}"))
            }
        }
        Ok(situation) => {
            let states: Vec<u8> = situation.elements.iter().map(|element| element.state() as u8).collect();
            let mut wanted = zeros;
            wanted.elements = states.len() as u16;
            wanted.file_state[..states.len()].copy_from_slice(&states);
            wanted.element_state[..states.len()].copy_from_slice(&states);
            if start.refusal != Refusal::NONE || start.desk != wanted {
                return Err(format!("a start from the states {states:?}: {start:?}"));
            }
            let (random, mut model, mut list) = (&mut Random::new(index), Model::start(states), Vec::new());
            let compared = follow(random, start.desk, &mut model, &mut list)?;
            if said(&model.file, &list) != (model.now.clone(), model.bytes[1]) {
                return Err(format!("the two readings of the request differ on {list:?}"));
            }
            Ok(1 + compared)
        }
    }
}

/// A desk with any content, and a list of writes after it.
fn compare_desk(seed: u64) -> Result<u64, String> {
    let random = &mut Random::new(!seed);
    let mut desk = Desk {
        control: random.byte(),
        status: random.byte(),
        number_low: random.byte(),
        number_high: random.between(0, 2) as u8,
        state: random.between(0, 4) as u8,
        elements: random.pick(&[0, 1, 2, 7, 255, 256, 257, 300, u16::MAX]),
        file_state: [0; 256],
        element_state: [0; 256],
    };
    desk.file_state = std::array::from_fn(|_| random.between(0, 3) as u8);
    desk.element_state = std::array::from_fn(|_| random.byte());
    let mut model = Model::of(&desk);
    same(&desk, &desk, &model)?;
    Ok(1 + follow(random, desk, &mut model, &mut Vec::new())?)
}

/// How many answers were compared, or the first that differs.
pub fn compare_desks() -> Result<u64, String> {
    let mut compared = 0;
    for index in 0..FILES {
        compared += compare_file(index).map_err(|difference| format!("desk of file {index}: {difference}"))?;
    }
    for seed in 0..DESKS {
        compared += compare_desk(seed).map_err(|difference| format!("desk {seed}: {difference}"))?;
    }
    Ok(compared)
}
