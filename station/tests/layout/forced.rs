//! Which folds, third legs and turns the tracks of a station force.
//!
//! A plan without any of them puts each end of each track at the left or at the right end of its section, so that some pairs are opposite and others the same:
//! a track runs from a right end to a left one; the two tracks of a section that a train runs through are at opposite ends of it; the legs of a turnout are
//! at one end of the stem, and all else there is at the other. A picture breaks some of these bonds. One that it breaks is forced where those that it keeps
//! contradict it: they join its two track ends in a ring with an odd number of opposite pairs (found by a union-find with parity), or, where the bond could
//! be kept by turning round all that the kept ones join, some tracks then lead to the right all round a ring (of which sections that a turning track joins
//! are one: they stand above one another).

use std::ops::AddAssign;

use judge::{ElementLine, Situation};

use super::measured::{Drawn, Track, can_run_through};

/// Bonds that a picture breaks: how many are forced, and how many are not.
#[derive(Clone, Copy, Debug, Default, PartialEq)]
pub struct Broken {
    pub forced: usize,
    pub unforced: usize,
}

impl AddAssign for Broken {
    fn add_assign(&mut self, other: Broken) {
        self.forced += other.forced;
        self.unforced += other.unforced;
    }
}

/// A track's end: the track, and 0 or 1 for its first or second section.
type End = (usize, usize);

#[derive(Clone, Copy, Debug, PartialEq)]
enum Kind {
    Straight,
    Through,
    Leg,
}

struct Bond {
    kind: Kind,
    ends: [End; 2],
    opposite: bool,
}

/// Classes of track ends that kept bonds join, and which of them are opposite.
struct Classes {
    above: Vec<(usize, bool)>,
}

impl Classes {
    fn of(&self, (track, end): End) -> (usize, bool) {
        let (mut at, mut turned) = (2 * track + end, false);
        while self.above[at].0 != at {
            turned ^= self.above[at].1;
            at = self.above[at].0;
        }
        (at, turned)
    }

    fn join(&mut self, bond: &Bond) {
        let [(one, turned), (two, also)] = bond.ends.map(|end| self.of(end));
        if one != two {
            self.above[one] = (two, turned ^ also ^ bond.opposite);
        }
    }
}

fn bonds(situation: &Situation, drawn: &Drawn) -> Vec<Bond> {
    let mut bonds: Vec<Bond> =
        (0..drawn.tracks.len()).map(|track| Bond { kind: Kind::Straight, ends: [(track, 0), (track, 1)], opposite: true }).collect();
    for (&section, here) in &drawn.joined {
        let end = |track: usize| (track, usize::from(drawn.tracks[track].sections[0] != section));
        if let [one, two] = here[..]
            && can_run_through(situation, drawn, section)
        {
            bonds.push(Bond { kind: Kind::Through, ends: [end(one.0), end(two.0)], opposite: true });
        }
        for element in &situation.elements {
            let ElementLine::Turnout { stem, straight, diverted, .. } = *element else { continue };
            if usize::from(stem.0) != section {
                continue;
            }
            let leg =
                |leg: u16| here.iter().map(|&(track, _)| track).find(|&track| drawn.tracks[track].sections.contains(&usize::from(leg)));
            let (Some(one), Some(two)) = (leg(straight.0), leg(diverted.0)) else { panic!("a turnout without a leg") };
            bonds.push(Bond { kind: Kind::Leg, ends: [end(one), end(two)], opposite: false });
            for &(other, _) in here.iter().filter(|&&(other, _)| other != one && other != two) {
                bonds.extend([one, two].map(|leg| Bond { kind: Kind::Leg, ends: [end(leg), end(other)], opposite: true }));
            }
        }
    }
    bonds
}

/// Whether some tracks lead to the right all round, where each has its ends at the right ends (true) of its sections or at the left ones.
fn has_ring(drawn: &Drawn, right: &dyn Fn(End) -> bool) -> bool {
    let sections = drawn.tracks.iter().flat_map(|track| track.sections).max().unwrap_or(0) + 1;
    let turns = |&(number, _): &(usize, &Track)| right((number, 0)) == right((number, 1));
    let mut column: Vec<usize> = (0..sections).collect();
    for (_, track) in drawn.tracks.iter().enumerate().filter(turns) {
        let [one, two] = track.sections.map(|section| column[section]);
        column.iter_mut().filter(|column| **column == one).for_each(|column| *column = two);
    }
    let mut next = vec![vec![]; sections];
    let mut waits = vec![0; sections];
    for (number, track) in drawn.tracks.iter().enumerate().filter(|track| !turns(track)) {
        let [one, two] = track.sections.map(|section| column[section]);
        let [from, to] = if right((number, 0)) { [one, two] } else { [two, one] };
        next[from].push(to);
        waits[to] += 1;
    }
    let mut ready: Vec<usize> = (0..sections).filter(|&section| waits[section] == 0).collect();
    let mut done = 0;
    while let Some(section) = ready.pop() {
        done += 1;
        for &other in &next[section] {
            waits[other] -= 1;
            if waits[other] == 0 {
                ready.push(other);
            }
        }
    }
    done < sections
}

/// The folds, the third and parted legs, and the turns of a picture.
pub fn broken(situation: &Situation, drawn: &Drawn) -> [Broken; 3] {
    let right = |(track, end): End| drawn.tracks[track].right[end];
    let mut classes = Classes { above: (0..2 * drawn.tracks.len()).map(|end| (end, false)).collect() };
    let bonds = bonds(situation, drawn);
    let is_kept = |bond: &Bond| (right(bond.ends[0]) != right(bond.ends[1])) == bond.opposite;
    bonds.iter().filter(|bond| is_kept(bond)).for_each(|bond| classes.join(bond));
    let mut found = [Broken::default(); 3];
    for bond in bonds.iter().filter(|bond| !is_kept(bond)) {
        let [one, two] = bond.ends.map(|end| classes.of(end).0);
        let rings = |class: usize| has_ring(drawn, &|end| right(end) ^ (classes.of(end).0 == class));
        let forced = one == two || rings(one) && rings(two);
        let of_kind = &mut found[match bond.kind {
            Kind::Through => 0,
            Kind::Leg => 1,
            Kind::Straight => 2,
        }];
        of_kind.forced += usize::from(forced);
        of_kind.unforced += usize::from(!forced);
    }
    found
}
