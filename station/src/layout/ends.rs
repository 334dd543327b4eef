//! Which end of each section a track is joined to. A train runs through a section from one end to the other, and the legs of a turnout leave the stem at
//! the end opposite to all else. So tracks that meet in a section are bound to its same end or to opposite ends; the strongest bonds are kept first. Where they
//! contradict one another round a ring the weakest is broken, or a track turns: it joins two right ends, or two left ones.

use std::cmp::Reverse;
use std::collections::BinaryHeap;

use super::graph::Graph;

/// How strong a bond is: what it costs to break it, where a track that passes one layer more costs 10.
const LEGS: i64 = 1000;
const THROUGH: i64 = 450;
const STEM: i64 = 400;
const TWO_TURNOUTS: i64 = 100;
const NOT_THROUGH: i64 = 40;
/// In a section of more than two tracks, which no turnout tells apart.
const AMONG_MANY: i64 = 12;
const BY_NUMBER: i64 = 3;
const NOT_THROUGH_AMONG_MANY: i64 = 4;
/// Where tracks may turn: what it costs that one does, a leg or another.
const TURN_LEG: i64 = 380;
const TURN: i64 = 200;
/// How many rings are parted in two halves, and how many halves of one are tried.
const MOST_RINGS: usize = 8;
const MOST_HALVES: usize = 60;
/// In a section of more tracks than this each is bound to the next one only: there is no telling which go through.
const MOST: usize = 8;

/// Two tracks of a section, at its same end or at opposite ends.
#[derive(Clone, Copy, Debug)]
struct Bond {
    tracks: [usize; 2],
    same: bool,
    strength: i64,
}

/// The bonds of each section.
#[derive(Clone, Debug, Default)]
pub struct Bonds(Vec<Vec<Bond>>);

impl Bonds {
    pub fn new(graph: &Graph) -> Bonds {
        let of_section = |section: usize| {
            let at = &graph.at[section];
            let last = |one: usize| if at.len() > MOST { at.len().min(one + 2) } else { at.len() };
            let pairs = (0..at.len()).flat_map(|one| (one + 1..last(one)).map(move |two| [at[one], at[two]]));
            pairs.map(|tracks| bond(graph, section, tracks)).collect()
        };
        Bonds((0..graph.nodes).map(of_section).collect())
    }

    /// What is broken in a section, by the ends at which its tracks are: 1 is the right end, -1 the left.
    pub fn broken(&self, section: usize, end: &dyn Fn(usize) -> i32) -> i64 {
        let is_broken = |bond: &&Bond| (end(bond.tracks[0]) == end(bond.tracks[1])) != bond.same;
        self.0[section].iter().filter(is_broken).map(|bond| bond.strength).sum()
    }
}

impl Bonds {
    /// How much more is broken in a section where a track is at its left end than where it is at its right one, by the ends of the others.
    pub fn pull(&self, section: usize, track: usize, end: &dyn Fn(usize) -> i32) -> i64 {
        let of_bond = |bond: &Bond| {
            let other = if bond.tracks[0] == track { bond.tracks[1] } else { bond.tracks[0] };
            bond.strength * i64::from(end(other)) * if bond.same { 1 } else { -1 }
        };
        self.0[section].iter().filter(|bond| bond.tracks.contains(&track)).map(of_bond).sum()
    }
}

fn bond(graph: &Graph, section: usize, tracks: [usize; 2]) -> Bond {
    let turnouts = tracks.map(|track| graph.turnout_of_stem(section, track));
    let (same, strength) = match turnouts {
        [Some(one), Some(two)] if one == two => (true, LEGS),
        [Some(_), Some(_)] => (false, TWO_TURNOUTS),
        [Some(_), None] | [None, Some(_)] => (false, STEM),
        [None, None] => bond_of_plain(graph, section, tracks),
    };
    Bond { tracks, same, strength }
}

/// Opposite ends where a train can come by one track and leave by the other.
fn bond_of_plain(graph: &Graph, section: usize, tracks: [usize; 2]) -> (bool, i64) {
    let [one, two] = tracks.map(|track| graph.away(track, section));
    let through = one == 0 || one != two;
    let alone = graph.at[section].len() == 2;
    let others = tracks.map(|track| graph.other(track, section) > section);
    match (through, alone) {
        (true, true) => (false, THROUGH),
        (true, false) => (false, AMONG_MANY + if others[0] == others[1] { 0 } else { BY_NUMBER }),
        (false, true) => (true, NOT_THROUGH),
        (false, false) => (true, NOT_THROUGH_AMONG_MANY),
    }
}

/// Of each track of a connected part, 1 where its first section is to the left of its second, -1 where it is to the right: along the strongest bonds
/// from track to track, so that a bond is broken only in a ring where it is the weakest. No way along the tracks to the right comes back.
pub fn directions(graph: &Graph, part: &[usize], bonds: &Bonds) -> Vec<i32> {
    let mut direction = vec![0; graph.tracks.len()];
    let Some(&start) = part.iter().find_map(|&node| graph.at[node].first()) else { return direction };
    let mut made = 0;
    let mut heap = BinaryHeap::from([(i64::MAX, Reverse(made), start, 1)]);
    while let Some((_, _, track, chosen)) = heap.pop() {
        if direction[track] != 0 {
            continue;
        }
        direction[track] = chosen;
        for section in graph.tracks[track].0 {
            for bond in bonds.0[section].iter().filter(|bond| bond.tracks.contains(&track)) {
                let other = if bond.tracks[0] == track { bond.tracks[1] } else { bond.tracks[0] };
                let end = chosen * graph.sign(track, section) * if bond.same { 1 } else { -1 };
                made += 1;
                heap.push((bond.strength, Reverse(made), other, end * graph.sign(other, section)));
            }
        }
    }
    break_rings(graph, part, bonds, &mut direction);
    direction
}

/// Of each track of a connected part, the ends at which it joins its first and its second section, where tracks may turn: join two right ends, or two left
/// ones. Bonds and tracks are kept as in [`directions`], a track that turns being a weak one that is broken. None where that leaves a ring which cannot be
/// parted in two halves.
pub fn turned(graph: &Graph, part: &[usize], bonds: &Bonds) -> Option<Ends> {
    let mut ends = vec![[0; 2]; graph.tracks.len()];
    let start = part.iter().find_map(|&node| graph.at[node].first()).copied()?;
    let place = |track: usize, section: usize| usize::from(graph.tracks[track].0[0] != section);
    let mut made = 0;
    let mut heap = BinaryHeap::from([(i64::MAX, Reverse(made), start, 0, 1)]);
    while let Some((_, _, track, at, chosen)) = heap.pop() {
        if ends[track][at] != 0 {
            continue;
        }
        ends[track][at] = chosen;
        let section = graph.tracks[track].0[at];
        made += 1;
        let straight = if graph.legs[track].is_some() { TURN_LEG } else { TURN };
        heap.push((straight, Reverse(made), track, 1 - at, -chosen));
        for bond in bonds.0[section].iter().filter(|bond| bond.tracks.contains(&track)) {
            let other = if bond.tracks[0] == track { bond.tracks[1] } else { bond.tracks[0] };
            made += 1;
            heap.push((bond.strength, Reverse(made), other, place(other, section), if bond.same { chosen } else { -chosen }));
        }
    }
    let is_turn = |ends: &[[i32; 2]], track: usize| ends[track][0] == ends[track][1];
    for _ in 0..MOST_RINGS {
        let direction: Vec<i32> = (0..ends.len()).map(|track| if is_turn(&ends, track) { 0 } else { ends[track][0] }).collect();
        let Some(ring) = ring(graph, part, &direction, &mut vec![Seen::Never; graph.nodes]) else { return Some(ends) };
        let half = half_of_ring(graph, &ring)?;
        for (end, track) in ends.iter_mut().zip(&graph.tracks) {
            for (side, section) in end.iter_mut().zip(track.0) {
                *side = if half[section] { -*side } else { *side };
            }
        }
    }
    None
}

/// The ends of tracks at sections: as in [`turned`].
pub type Ends = Vec<[i32; 2]>;

/// Ways to keep a bond that is broken though those that are kept do not contradict it: one of two classes of track ends, those that kept bonds join,
/// has left and right exchanged. The strongest such bonds come first.
pub fn mended(graph: &Graph, part: &[usize], bonds: &Bonds, ends: &Ends) -> Vec<Ends> {
    let number = |track: usize, section: usize| 2 * track + usize::from(graph.tracks[track].0[0] != section);
    let right = |end: usize| ends[end / 2][end % 2];
    // Two track ends each, whether they are to be the same, and the strength.
    let mut all: Vec<([usize; 2], bool, i64)> =
        graph.tracks_of(part).iter().map(|track| ([2 * track, 2 * track + 1], false, TURN)).collect();
    for &section in part {
        let strong = bonds.0[section].iter().filter(|bond| bond.strength >= TWO_TURNOUTS);
        all.extend(strong.map(|bond| (bond.tracks.map(|track| number(track, section)), bond.same, bond.strength)));
    }
    let is_kept = |&&([one, two], same, _): &&([usize; 2], bool, i64)| (right(one) == right(two)) == same;
    let mut class: Vec<usize> = (0..2 * ends.len()).collect();
    for &([one, two], ..) in all.iter().filter(is_kept) {
        let [one, two] = [one, two].map(|end| first_of(&class, end));
        class[one.max(two)] = one.min(two);
    }
    let mut broken: Vec<_> = all.iter().filter(|bond| bond.2 > TURN && !is_kept(bond)).collect();
    broken.sort_by_key(|bond| Reverse(bond.2));
    let classes = broken.iter().map(|bond| bond.0.map(|end| first_of(&class, end))).filter(|[one, two]| one != two);
    let turned = |side: usize| {
        let turn = |end: usize| if first_of(&class, end) == side { -right(end) } else { right(end) };
        (0..ends.len()).map(|track| [turn(2 * track), turn(2 * track + 1)]).collect()
    };
    classes.flatten().map(turned).collect()
}

/// The first in the class of a track end.
fn first_of(class: &[usize], end: usize) -> usize {
    std::iter::successors(Some(end), |&at| Some(class[at]).filter(|&above| above != at)).last().unwrap_or(end)
}

/// The sections of about half of a ring with all that hangs on them, between two tracks of it that are no legs if that can be had.
fn half_of_ring(graph: &Graph, ring: &[usize]) -> Option<Vec<bool>> {
    let half = ring.len() / 2;
    let mut tries: Vec<(usize, usize, usize)> = Vec::new();
    for one in 0..ring.len() {
        for two in one + 1..ring.len() {
            let legs = [one, two].into_iter().filter(|&place| graph.legs[ring[place]].is_some()).count();
            tries.push((legs * ring.len() + (two - one).abs_diff(half), one, two));
        }
    }
    tries.sort_unstable();
    tries.into_iter().take(MOST_HALVES).find_map(|(_, one, two)| {
        let gone = [ring[one], ring[two]];
        let [start, end] = graph.tracks[gone[0]].0;
        let mut reached = vec![false; graph.nodes];
        reached[start] = true;
        let mut next = vec![start];
        while let Some(node) = next.pop() {
            for &track in graph.at[node].iter().filter(|track| !gone.contains(track)) {
                let other = graph.other(track, node);
                if !reached[other] {
                    reached[other] = true;
                    next.push(other);
                }
            }
        }
        (!reached[end]).then_some(reached)
    })
}

/// Turns tracks round as long as some way to the right comes back, in each ring the one whose turn breaks least.
fn break_rings(graph: &Graph, part: &[usize], bonds: &Bonds, direction: &mut [i32]) {
    let mut turned = vec![false; graph.tracks.len()];
    let mut seen = vec![Seen::Never; graph.nodes];
    while let Some(ring) = ring(graph, part, direction, &mut seen) {
        let cost = |track: usize| {
            let mut cost = 0;
            for section in graph.tracks[track].0 {
                let end = |other: usize| direction[other] * graph.sign(other, section);
                let then = |other: usize| if other == track { -end(other) } else { end(other) };
                cost += bonds.broken(section, &then) - bonds.broken(section, &end);
            }
            (turned[track], cost, track)
        };
        let Some(track) = ring.into_iter().min_by_key(|&track| cost(track)) else { return };
        // What was turned before is not turned again: all goes by number then.
        if turned[track] {
            direction.fill(1);
            return;
        }
        turned[track] = true;
        direction[track] = -direction[track];
    }
}

/// What is known of a node while rings are looked for.
#[derive(Clone, Copy, PartialEq)]
enum Seen {
    Never,
    OnTheWay,
    /// No ring can be come to from it, nor from what can be come to; it stays so where a track of a ring is turned.
    Done,
}

/// The tracks of a ring that is run to the right all along.
fn ring(graph: &Graph, part: &[usize], direction: &[i32], seen: &mut [Seen]) -> Option<Vec<usize>> {
    for &start in part {
        // Node, the track by which it was come to, and which of its tracks is next.
        let mut way = vec![(start, usize::MAX, 0)];
        while let Some(&mut (node, _, ref mut next)) = way.last_mut() {
            if *next == 0 && seen[node] != Seen::Never {
                way.pop();
                continue;
            }
            seen[node] = Seen::OnTheWay;
            let Some(&track) = graph.at[node].get(*next) else {
                seen[node] = Seen::Done;
                way.pop();
                continue;
            };
            *next += 1;
            if direction[track] * graph.sign(track, node) <= 0 {
                continue;
            }
            let other = graph.other(track, node);
            match seen[other] {
                Seen::Never => way.push((other, track, 0)),
                Seen::OnTheWay => {
                    let from = way.iter().position(|&(on, _, _)| on == other).unwrap_or(0);
                    way.iter().for_each(|&(on, _, _)| seen[on] = Seen::Never);
                    return Some(way[from + 1..].iter().map(|&(_, by, _)| by).chain([track]).collect());
                }
                Seen::Done => {}
            }
        }
    }
    None
}

#[cfg(test)]
mod tests {
    use super::*;
    use crate::layout::graph::tracks;
    use crate::model::Station;
    use crate::model::examples::{both_ways, station_of, turnout};
    use judge::State;

    /// The sections at the left and at the right end of a section, counted from 1.
    fn beside(station: &Station, section: usize) -> [Vec<usize>; 2] {
        let graph = Graph::new(station, &tracks(station));
        let part: Vec<usize> = (0..graph.nodes).collect();
        let direction = directions(&graph, &part, &Bonds::new(&graph));
        let side = |right: bool| {
            let at = graph.at[section - 1].iter().filter(|&&track| (direction[track] * graph.sign(track, section - 1) > 0) == right);
            let mut found: Vec<usize> = at.map(|&track| graph.other(track, section - 1) + 1).collect();
            found.sort_unstable();
            found
        };
        [side(false), side(true)]
    }

    #[test]
    fn legs_leave_the_stem_opposite_to_the_rest() {
        // A loop of two platforms between stems 2 and 5.
        let elements = vec![turnout(2, 3, 4, State::One), turnout(5, 3, 4, State::One)];
        let station = station_of(6, &both_ways(&[(1, 2), (5, 6)]), elements);
        let sides = [2, 3, 4, 5].map(|section| beside(&station, section));
        assert_eq!(sides, [[vec![1], vec![3, 4]], [vec![2], vec![5]], [vec![2], vec![5]], [vec![3, 4], vec![6]]]);
    }

    #[test]
    fn a_ring_is_broken() {
        let station = station_of(4, &both_ways(&[(1, 2), (2, 3), (3, 4), (4, 1)]), vec![]);
        let folded = (1..=4).filter(|&section| beside(&station, section).iter().any(Vec::is_empty)).count();
        assert_eq!(folded, 2);
    }
}
