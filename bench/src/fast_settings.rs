//! The settings question in plain Rust, optimised by hand: many settings at a time, one in each bit of a word.
//!
//! What reaches each section by the fixed moves is found for all trains and all open moves in one pass over the strongly connected components, a
//! bit for each. Then only the open moves are left: which of them start where another one leads (`exits`), whose closures under the fixed moves meet
//! (`overlaps`), and which closures meet what another train reaches by the fixed moves (`harms`). The first open elements fix a block of settings, and
//! `Lanes` has a bit for each setting of the last ones: of each open move, the settings that permit it; of each train, the settings in which it follows
//! the move. On most stations a block costs little more than one setting by itself; docs/SPEED.md has the worst case.

use crate::fast::{Links, each_pair, standing};
use judge::ffi::Situation;

pub(crate) const MOST_OPEN: usize = 12;
/// At most four for each of twelve turnouts.
const MOST_MOVES: usize = 4 * MOST_OPEN;

/// So many words have a bit for each setting of a block. Two and more are one instruction for each two; with eight little is gained over four.
const WORDS: usize = 4;
/// So many open elements at the end differ within a block.
const INNER: usize = 6 + WORDS.ilog2() as usize;

type Lanes = [u64; WORDS];
const NO_LANE: Lanes = [0; WORDS];

#[inline(always)]
fn of_both(one: Lanes, two: Lanes) -> Lanes {
    std::array::from_fn(|word| one[word] & two[word])
}

#[inline(always)]
fn of_either(one: Lanes, two: Lanes) -> Lanes {
    std::array::from_fn(|word| one[word] | two[word])
}

#[inline(always)]
fn without(one: Lanes, two: Lanes) -> Lanes {
    std::array::from_fn(|word| one[word] & !two[word])
}

/// The numbers of the bits of a word, from the lowest on.
struct Bits(u64);

impl Iterator for Bits {
    type Item = usize;

    #[inline(always)]
    fn next(&mut self) -> Option<usize> {
        let bit = self.0.trailing_zeros() as usize;
        (self.0 != 0).then(|| {
            self.0 &= self.0 - 1;
            bit
        })
    }
}

// ---- the fixed moves

/// What reaches a section by the fixed moves: a bit for each train, and for each open move, from where it leads.
#[derive(Clone, Copy)]
struct Reached {
    trains: u64,
    moves: u64,
}

const BY_NOTHING: Reached = Reached { trains: 0, moves: 0 };

impl Reached {
    #[inline(always)]
    fn join(&mut self, other: Reached) {
        self.trains |= other.trains;
        self.moves |= other.moves;
    }
}

impl Links {
    /// Adds to what reaches each section whatever reaches it over these moves, and shows what reaches each component that no move leaves: two
    /// closures that meet do so in one of them. The search goes against the moves (Pearce's form of Tarjan's): a component ends behind all that reach it. All
    /// links are used up.
    #[inline(always)]
    fn spread(&mut self, sections: usize, reached: &mut [Reached; 512], mut see: impl FnMut(Reached)) {
        /// Numbers of components go down from here, those of sections on the way up from 1.
        const LAST: u16 = 1055;
        let mut number = [0u16; 512];
        let mut of_component = [BY_NOTHING; 512];
        let mut is_left = [false; LAST as usize + 1];
        let mut way = [(0u16, 0u16); 512];
        let (mut waiting, mut kept) = ([0u16; 512], 0);
        let (mut next, mut component) = (1, LAST);
        for start in 0..sections {
            if number[start] != 0 {
                continue;
            }
            if self.first[start] == 0 {
                number[start] = component;
                of_component[usize::from(LAST - component) & 511] = reached[start];
                component -= 1;
                continue;
            }
            number[start] = next;
            way[0] = (start as u16, next);
            next += 1;
            let mut depth = 1;
            while depth > 0 {
                let (section, entered) = way[(depth - 1) & 511];
                let section = usize::from(section) & 511;
                let link = usize::from(self.first[section]);
                if link != 0 {
                    let before = usize::from(self.section[link]) & 511;
                    if number[before] == 0 && self.first[before] != 0 {
                        number[before] = next;
                        way[depth & 511] = (before as u16, next);
                        next += 1;
                        depth += 1;
                        continue;
                    }
                    if number[before] == 0 {
                        number[before] = component;
                        of_component[usize::from(LAST - component) & 511] = reached[before];
                        component -= 1;
                    }
                    self.first[section] = self.next[link];
                    is_left[usize::from(number[before])] = true;
                    number[section] = number[section].min(number[before]);
                    let more = reached[before];
                    reached[section].join(more);
                    continue;
                }
                depth -= 1;
                if number[section] != entered {
                    waiting[kept & 511] = section as u16;
                    kept += 1;
                    continue;
                }
                let whole = reached[section];
                while kept > 0 && number[usize::from(waiting[kept - 1]) & 511] >= entered {
                    kept -= 1;
                    let member = usize::from(waiting[kept]) & 511;
                    number[member] = component;
                    reached[member] = whole;
                }
                number[section] = component;
                of_component[usize::from(LAST - component) & 511] = whole;
                component -= 1;
            }
        }
        for place in 0..usize::from(LAST - component) {
            if !is_left[usize::from(LAST) - place] {
                see(of_component[place]);
            }
        }
    }
}

// ---- the open moves

/// The open elements with their moves.
struct Open {
    elements: usize,
    /// Bit n for open element n that is a signal.
    signals: u32,
    moves: usize,
    from: [u16; MOST_MOVES],
    to: [u16; MOST_MOVES],
    /// For each open element, the moves that it leaves in states 1 and 2.
    leaves: [[u64; 2]; MOST_OPEN],
    /// Those that the fixed elements leave.
    unblocked: u64,
}

impl Open {
    fn of(s: &Situation, shared: bool) -> Open {
        let mut open = Open {
            elements: 0,
            signals: 0,
            moves: 0,
            from: [0; MOST_MOVES],
            to: [0; MOST_MOVES],
            leaves: [[!0; 2]; MOST_OPEN],
            unblocked: !0,
        };
        for place in 0..usize::from(s.elements) {
            if s.element_state[place] == 0 {
                each_pair(s, place, 1, |from, to, permitted| {
                    open.from[open.moves] = from - 1;
                    open.to[open.moves] = to - 1;
                    open.leaves[open.elements][usize::from(permitted)] &= !(1 << open.moves);
                    open.moves += 1;
                });
                open.signals |= u32::from(s.is_turnout[place] == 0) << open.elements;
                open.elements += 1;
            }
        }
        if shared {
            open.forbid(s);
        }
        open
    }

    /// Takes away what each element forbids of another's moves.
    fn forbid(&mut self, s: &Situation) {
        let mut open = 0;
        for place in 0..usize::from(s.elements) {
            let state = s.element_state[place];
            for tried in if state == 0 { 1..=2 } else { state..=state } {
                each_pair(s, place, tried, |from, to, permitted| {
                    if !permitted {
                        let left = !self.along(from - 1, to - 1);
                        if state == 0 {
                            self.leaves[open][usize::from(tried - 1)] &= left;
                        } else {
                            self.unblocked &= left;
                        }
                    }
                });
            }
            open += usize::from(state == 0);
        }
    }

    /// The open moves of a pair.
    fn along(&self, from: u16, to: u16) -> u64 {
        (0..self.moves).filter(|&place| (self.from[place], self.to[place]) == (from, to)).fold(0, |found, place| found | 1 << place)
    }

    /// The moves that are left in a setting of the first elements, of which the first has the highest bit, and 0 means state 1.
    fn left(&self, elements: usize, setting: usize) -> u64 {
        (0..elements).fold(self.unblocked, |left, element| left & self.leaves[element][setting >> (elements - 1 - element) & 1])
    }
}

/// The settings of a block in which an open element is at 2, by how many open elements there are behind it.
const fn diverted(behind: usize) -> Lanes {
    const WITHIN: [u64; 6] =
        [0xaaaa_aaaa_aaaa_aaaa, 0xcccc_cccc_cccc_cccc, 0xf0f0_f0f0_f0f0_f0f0, 0xff00_ff00_ff00_ff00, 0xffff_0000_ffff_0000, !0 << 32];
    let mut lanes = NO_LANE;
    let mut word = 0;
    while word < WORDS {
        lanes[word] = if behind < 6 { WITHIN[behind] } else { 0u64.wrapping_sub((word >> (behind - 6) & 1) as u64) };
        word += 1;
    }
    lanes
}

/// A train that some open move affects.
#[derive(Clone, Copy)]
struct Affected {
    /// The moves that leave what it reaches by the fixed ones.
    starts: u64,
    /// The moves whose closures meet what another train reaches by the fixed ones.
    harms: u64,
}

/// What the settings are tried with.
pub(crate) struct Trial {
    open: Open,
    exits: [u64; MOST_MOVES],
    overlaps: [u64; MOST_MOVES],
    trains: [Affected; 64],
    affected: usize,
    /// The settings of a block that permit each move, as far as the elements go that differ within a block.
    planes: [Lanes; MOST_MOVES],
    /// So many elements differ within a block.
    inner: usize,
}

impl Trial {
    /// `None` where two trains meet by the fixed moves alone.
    pub(crate) fn of(s: &Situation, shared: bool) -> Option<Trial> {
        let open = Open::of(s, shared);
        let mut reached = [BY_NOTHING; 512];
        let trains = usize::from(s.trains);
        for train in 0..trains {
            for &section in standing(s, train) {
                let here = &mut reached[usize::from(section - 1) & 511].trains;
                if *here != 0 {
                    return None;
                }
                *here = 1 << train;
            }
        }
        for (place, &to) in open.to[..open.moves].iter().enumerate() {
            reached[usize::from(to) & 511].moves |= 1 << place;
        }
        let mut overlaps = [0; MOST_MOVES];
        let mut met = [0; 64];
        let mut meeting = false;
        let mut last = 0;
        Links::of::<true>(s, shared).spread(usize::from(s.sections), &mut reached, |Reached { trains, moves }| {
            meeting |= trains & trains.wrapping_sub(1) != 0;
            if trains != 0 {
                met[trains.trailing_zeros() as usize & 63] |= moves;
            }
            if moves != last {
                Bits(moves).for_each(|place| overlaps[place] |= moves);
                last = moves;
            }
        });
        if meeting {
            return None;
        }
        let mut trial = Trial {
            exits: [0; MOST_MOVES],
            overlaps,
            trains: [Affected { starts: 0, harms: 0 }; 64],
            affected: 0,
            planes: [NO_LANE; MOST_MOVES],
            inner: open.elements.min(INNER),
            open,
        };
        trial.follow_on(&reached, &met[..trains]);
        trial.plan();
        Some(trial)
    }

    /// Which moves start where the fixed moves lead from a train or behind another move. One that leads back there adds nothing: the way back over the
    /// same turnout, and what the fixed moves reach anyway.
    fn follow_on(&mut self, reached: &[Reached; 512], met: &[u64]) {
        let mut starts = [0; 64];
        for place in 0..self.open.moves {
            let (from, to) = (usize::from(self.open.from[place]) & 511, usize::from(self.open.to[place]) & 511);
            let (here, there) = (reached[from], reached[to]);
            let train = here.trains & !there.trains;
            if train != 0 {
                starts[train.trailing_zeros() as usize & 63] |= 1 << place;
            }
            for earlier in Bits(here.moves & !there.moves) {
                if (usize::from(self.open.from[earlier]), usize::from(self.open.to[earlier])) != (to, from) {
                    self.exits[earlier] |= 1 << place;
                }
            }
        }
        let (any, two) = met.iter().fold((0, 0), |(any, two), moves| (any | moves, two | any & moves));
        for (&starts, moves) in starts.iter().zip(met).filter(|(starts, _)| **starts != 0) {
            self.trains[self.affected] = Affected { starts, harms: two | any & !moves };
            self.affected += 1;
        }
    }

    /// The settings of a block that permit each move.
    fn plan(&mut self) {
        let all = [!0; WORDS];
        self.planes = [all; MOST_MOVES];
        for behind in 0..self.inner {
            let [one, two] = self.open.leaves[self.open.elements - 1 - behind];
            let diverted = diverted(behind);
            Bits(!one & self.moves()).for_each(|place| self.planes[place] = of_both(self.planes[place], diverted));
            Bits(!two & self.moves()).for_each(|place| self.planes[place] = without(self.planes[place], diverted));
        }
    }

    fn moves(&self) -> u64 {
        (1 << self.open.moves) - 1
    }

    fn blocks(&self) -> usize {
        1 << (self.open.elements - self.inner)
    }

    /// The safe settings of a block.
    #[inline(always)]
    fn safe(&self, block: usize) -> Lanes {
        let left = self.open.left(self.open.elements - self.inner, block);
        let mut good = [!0; WORDS];
        if self.inner < 6 {
            good[0] = (1 << (1 << self.inner)) - 1;
        }
        for behind in self.inner.max(6)..INNER {
            good = without(good, diverted(behind));
        }
        // Of each move, the settings in which the train follows it, and those in which an earlier one does; only what the words name stands there.
        let mut follows = [NO_LANE; MOST_MOVES];
        let mut followed = [NO_LANE; MOST_MOVES];
        let mut earlier = 0;
        for train in &self.trains[..self.affected] {
            let mut waiting = train.starts & left;
            let mut moves = waiting;
            for place in Bits(waiting) {
                follows[place] = of_both(self.planes[place], good);
            }
            // Round by round, so that a move is seldom followed on again because it is reached in more settings; one that is reached in all settings that
            // permit it is asked for no longer.
            let mut later = 0;
            let mut partly = left & !waiting;
            while waiting != 0 {
                let place = waiting.trailing_zeros() as usize;
                waiting &= waiting - 1;
                let here = follows[place];
                for next in Bits(self.exits[place] & partly) {
                    let new = without(of_both(here, self.planes[next]), follows[next]);
                    if new != NO_LANE {
                        follows[next] = of_either(follows[next], new);
                        if follows[next] == of_both(self.planes[next], good) {
                            partly &= !(1 << next);
                        }
                        later |= 1 << next & !waiting;
                        moves |= 1 << next;
                    }
                }
                if waiting == 0 {
                    (waiting, later) = (later, 0);
                }
            }
            let mut danger = NO_LANE;
            for place in Bits(moves) {
                let mut met = NO_LANE;
                if train.harms >> place & 1 != 0 {
                    met = [!0; WORDS];
                } else {
                    for other in Bits(self.overlaps[place] & earlier) {
                        met = of_either(met, followed[other]);
                    }
                }
                danger = of_either(danger, of_both(follows[place], met));
            }
            good = without(good, danger);
            if good == NO_LANE {
                break;
            }
            for place in Bits(moves) {
                followed[place] = of_either(followed[place], follows[place]);
                follows[place] = NO_LANE;
            }
            earlier |= moves;
        }
        good
    }

    /// Whether some setting is safe.
    pub(crate) fn some_safe(&self) -> bool {
        (0..self.blocks()).any(|block| self.safe(block) != NO_LANE)
    }

    /// The number of safe settings, and the chosen one with its proceed count.
    pub(crate) fn choose(&self) -> Choice {
        let mut choice = Choice { safe: 0, proceed: 0, setting: 0 };
        let outer = self.open.elements - self.inner;
        // The settings of a block with so many open signals at proceed.
        let mut proceeding = [NO_LANE; INNER + 1];
        proceeding[0] = [!0; WORDS];
        let mut most = 0;
        for behind in (0..self.inner).filter(|behind| self.open.signals >> (self.open.elements - 1 - behind) & 1 != 0) {
            let diverted = diverted(behind);
            most += 1;
            for count in (0..most).rev() {
                proceeding[count + 1] = of_either(proceeding[count + 1], without(proceeding[count], diverted));
                proceeding[count] = of_both(proceeding[count], diverted);
            }
        }
        for block in 0..self.blocks() {
            let good = self.safe(block);
            if good == NO_LANE {
                continue;
            }
            let is_first = choice.safe == 0;
            choice.safe += good.iter().map(|word| word.count_ones() as u16).sum::<u16>();
            let outside =
                (0..outer).filter(|element| (self.open.signals >> element) & !(block >> (outer - 1 - element)) as u32 & 1 != 0).count();
            for count in (0..=most).rev() {
                if !is_first && outside + count <= choice.proceed {
                    break;
                }
                let best = of_both(good, proceeding[count]);
                if let Some(word) = best.iter().position(|word| *word != 0) {
                    choice.proceed = outside + count;
                    choice.setting = block << self.inner | (64 * word + best[word].trailing_zeros() as usize);
                    break;
                }
            }
        }
        choice
    }

    /// The state of an open element in the setting of a number: the first element has the highest bit.
    pub(crate) fn state(&self, setting: usize, element: usize) -> u8 {
        1 + (setting >> (self.open.elements - 1 - element) & 1) as u8
    }
}

/// The number of safe settings, and the number of the chosen one with its proceed count.
pub(crate) struct Choice {
    pub(crate) safe: u16,
    pub(crate) proceed: usize,
    pub(crate) setting: usize,
}
