//! Situations as values, for the writer: right ones, damaged ones, and anything at all past the counts.

use judge::ffi::Situation;

use super::stations;
use crate::random::Random;
use crate::subject::from_oracle;

/// Values to write: a station's, and in three of four cases some of them damaged.
pub fn values(random: &mut Random) -> Situation {
    let (_, situation) = stations::station(random);
    let mut values = from_oracle(&situation);
    fill_unused(random, &mut values);
    for _ in 0..random.between(0, 3) {
        damage(random, &mut values);
    }
    values
}

/// Anything at all past the counts and in the unused field of a signal, and any number but 0 for a turnout and for the letter U.
pub fn fill_unused(random: &mut Random, values: &mut Situation) {
    for place in usize::from(values.plain)..1024 {
        values.plain_from[place] = random.number() as u16;
        values.plain_to[place] = random.number() as u16;
    }
    for place in 0..256 {
        if place >= usize::from(values.elements) {
            values.is_turnout[place] = random.byte();
            values.element_first[place] = random.number() as u16;
            values.element_second[place] = random.number() as u16;
            values.element_third[place] = random.number() as u16;
            values.element_state[place] = random.byte();
        } else if values.is_turnout[place] != 0 {
            values.is_turnout[place] = random.pick(&[1, 1, 2, 128, 255]);
        } else {
            values.element_third[place] = random.pick(&[0, values.element_first[place], 600, 65_535]);
        }
    }
    for place in 0..64 {
        if place >= usize::from(values.trains) {
            values.train_size[place] = random.byte();
        }
        let size = if place < usize::from(values.trains) { usize::from(values.train_size[place]) } else { 0 };
        for next in size..4 {
            values.train_section[4 * place + next] = random.number() as u16;
        }
    }
    if values.is_long != 0 {
        values.is_long = random.pick(&[1, 1, 2, 128, 255]);
    }
}

/// One value changed into one that the writer refuses, or that may clash with another.
fn damage(random: &mut Random, values: &mut Situation) {
    let section = random.pick(&[0, 1, 2, values.sections, values.sections.wrapping_add(1), 513, 65_535]);
    let plain = usize::from(values.plain.min(1024));
    let elements = usize::from(values.elements.min(256));
    let trains = usize::from(values.trains.min(64));
    match random.between(1, 24) {
        1 => values.sections = random.pick(&[0, 1, 512, 513, 65_535]),
        2 => values.plain = random.pick(&[0, 1024, 1025, 65_535]),
        3 => values.elements = random.pick(&[0, 256, 257, 65_535]),
        4 => values.trains = random.pick(&[0, 64, 65, 65_535]),
        5..=6 if plain > 0 => values.plain_from[random.place(plain)] = section,
        7..=8 if plain > 0 => values.plain_to[random.place(plain)] = section,
        9 if elements > 0 => values.element_first[random.place(elements)] = section,
        10 if elements > 0 => values.element_second[random.place(elements)] = section,
        11 if elements > 0 => values.element_third[random.place(elements)] = section,
        12 if elements > 0 => values.is_turnout[random.place(elements)] ^= 1,
        13 if elements > 0 => values.element_state[random.place(elements)] = random.pick(&[0, 1, 2, 3, 4, 255]),
        14 if plain > 1 => {
            let (one, two) = (random.place(plain), random.place(plain));
            values.plain_from[one] = values.plain_from[two];
            values.plain_to[one] = values.plain_to[two];
        }
        15 if plain > 0 && elements > 0 => {
            let (one, two) = (random.place(elements), random.place(plain));
            values.element_first[one] = values.plain_from[two];
            values.element_second[one] = values.plain_to[two];
        }
        16 => values.is_long ^= 1,
        17..=21 if trains > 0 => values.train_size[random.place(trains)] = random.pick(&[0, 1, 2, 3, 4, 5, 5, 255]),
        22 if trains > 0 => {
            let train = 4 * random.place(trains);
            values.train_section[train + random.place(4)] = values.train_section[train + random.place(4)];
        }
        _ if trains > 0 => values.train_section[random.place(4 * trains)] = section,
        _ => values.sections = section,
    }
}
