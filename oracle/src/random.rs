//! A small generator of numbers (splitmix64): the same seed gives the same numbers on every machine.

pub struct Random {
    state: u64,
}

impl Random {
    pub fn new(seed: u64) -> Random {
        Random { state: seed.wrapping_mul(0xd134_2543_de82_ef95) }
    }

    pub fn number(&mut self) -> u64 {
        self.state = self.state.wrapping_add(0x9e37_79b9_7f4a_7c15);
        let mut mixed = self.state;
        mixed = (mixed ^ (mixed >> 30)).wrapping_mul(0xbf58_476d_1ce4_e5b9);
        mixed = (mixed ^ (mixed >> 27)).wrapping_mul(0x94d0_49bb_1331_11eb);
        mixed ^ (mixed >> 31)
    }

    /// A number from `low` to `high`, both included.
    pub fn between(&mut self, low: u32, high: u32) -> u32 {
        assert!(low <= high);
        low + (self.number() % (u64::from(high - low) + 1)) as u32
    }

    /// A place in a list of this length.
    pub fn place(&mut self, length: usize) -> usize {
        self.between(0, length as u32 - 1) as usize
    }

    /// True once in so many times.
    pub fn once_in(&mut self, times: u32) -> bool {
        self.between(1, times) == 1
    }

    pub fn byte(&mut self) -> u8 {
        self.between(0, 255) as u8
    }

    /// An entry of a list.
    pub fn pick<T: Copy>(&mut self, list: &[T]) -> T {
        list[self.place(list.len())]
    }

    pub fn shuffle<T>(&mut self, list: &mut [T]) {
        for place in (1..list.len()).rev() {
            list.swap(place, self.place(place + 1));
        }
    }
}
