//! What is compared with the oracle: anything that has the judge's first five operations, with the values of its C interface.

use judge::ffi::{Filled, Output, Reading, Refusal, SettingsAnswer, Situation, VerdictAnswer};
use judge::{MAX_ELEMENTS, MAX_STANDING, MAX_TRAINS};

use crate::law::{self, Element, Header};

/// The five operations.
pub trait Subject {
    fn read(&self, file: &[u8]) -> Reading;
    fn write(&self, situation: &Situation, buffer: &mut [u8]) -> Output;
    fn verdict(&self, file: &[u8], first: &mut [u16], second: &mut [u16]) -> VerdictAnswer;
    fn settings(&self, file: &[u8], buffer: &mut [u8]) -> SettingsAnswer;
    fn key(&self, file: &[u8], buffer: &mut [u8]) -> Output;
}

/// The answer of an operation that puts these bytes at the start of a buffer long enough for them, or refuses.
pub fn fill(found: Result<Vec<u8>, Refusal>, buffer: &mut [u8]) -> Filled {
    match found {
        Ok(bytes) => {
            buffer[..bytes.len()].copy_from_slice(&bytes);
            Filled { refusal: Refusal::NONE, length: bytes.len() }
        }
        Err(refusal) => Filled { refusal, length: 0 },
    }
}

/// What is handed back of a text that was written, or after a refusal.
pub fn output(found: Result<&[u8], Refusal>) -> Output {
    let (refusal, text) = found.map_or_else(|refusal| (refusal, &[][..]), |text| (Refusal::NONE, text));
    Output { refusal, length: text.len(), subtractions: law::digits(text) }
}

/// The same of an operation that asks for a buffer of so many bytes at least.
pub fn fill_at_least(found: Result<Vec<u8>, Refusal>, needed: usize, buffer: &mut [u8]) -> Filled {
    let long = |text: &Vec<u8>| buffer.len() >= needed.max(text.len());
    fill(found.and_then(|text| if long(&text) { Ok(text) } else { Err(Refusal { number: 9, line: 0 }) }), buffer)
}

/// The oracle's situation in lists of fixed length, with zeros past the counts and in the unused field of a signal.
pub fn from_oracle(situation: &law::Situation) -> Situation {
    let mut lists = Situation::ZEROS;
    lists.sections = situation.header.sections as u16;
    lists.plain = situation.header.plain as u16;
    lists.elements = situation.header.elements as u16;
    lists.trains = situation.header.trains as u16;
    for (place, &(from, to)) in situation.plain.iter().enumerate() {
        lists.plain_from[place] = from as u16;
        lists.plain_to[place] = to as u16;
    }
    for (place, &element) in situation.elements.iter().enumerate() {
        let (turnout, first, second, third, state) = match element {
            Element::Signal { from, to, state } => (0, from, to, 0, state),
            Element::Turnout { stem, straight, diverted, state } => (1, stem, straight, diverted, state),
        };
        lists.is_turnout[place] = turnout;
        lists.element_first[place] = first as u16;
        lists.element_second[place] = second as u16;
        lists.element_third[place] = third as u16;
        lists.element_state[place] = state as u8;
    }
    lists.is_long = u8::from(situation.header.long);
    for (place, sections) in situation.trains.iter().enumerate() {
        lists.train_size[place] = sections.len() as u8;
        for (next, &section) in sections.iter().enumerate() {
            lists.train_section[MAX_STANDING * place + next] = section as u16;
        }
    }
    lists
}

/// All entries of the lists, those past the counts too, as the oracle's writer takes them.
pub fn to_oracle(lists: &Situation) -> law::Situation {
    let element = |place: usize| {
        let first = u32::from(lists.element_first[place]);
        let second = u32::from(lists.element_second[place]);
        let third = u32::from(lists.element_third[place]);
        let state = u32::from(lists.element_state[place]);
        match lists.is_turnout[place] {
            0 => Element::Signal { from: first, to: second, state },
            _ => Element::Turnout { stem: first, straight: second, diverted: third, state },
        }
    };
    // Past the fourth there is no section to be had: the oracle looks at the number first.
    let train = |place: usize| -> Vec<u32> {
        let section = |next: usize| if next < MAX_STANDING { u32::from(lists.train_section[MAX_STANDING * place + next]) } else { 0 };
        (0..usize::from(lists.train_size[place])).map(section).collect()
    };
    law::Situation {
        header: Header {
            long: lists.is_long != 0,
            sections: u32::from(lists.sections),
            plain: u32::from(lists.plain),
            elements: u32::from(lists.elements),
            trains: u32::from(lists.trains),
        },
        plain: lists.plain_from.iter().zip(&lists.plain_to).map(|(&from, &to)| (u32::from(from), u32::from(to))).collect(),
        elements: (0..MAX_ELEMENTS).map(element).collect(),
        trains: (0..MAX_TRAINS).map(train).collect(),
    }
}

/// The same, with 1 for every turnout and for the letter U: which other number stands for them makes no difference.
pub fn with_plain_kinds(mut lists: Situation) -> Situation {
    for kind in &mut lists.is_turnout {
        *kind = u8::from(*kind != 0);
    }
    lists.is_long = u8::from(lists.is_long != 0);
    lists
}
