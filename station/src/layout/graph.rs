//! The tracks of a station: each two sections that some line joins, in either direction, have one track.

use std::collections::BTreeMap;

use judge::{ElementLine, Section};

use crate::model::{Leg, Over, Station};

/// The track between two sections, counted from 0, the lower one first.
#[derive(Clone, Debug, PartialEq, Eq)]
pub struct Track {
    pub ends: [usize; 2],
    /// The lines over the pair from the first end to the second, and over the pair back.
    pub over: [Over; 2],
}

impl Track {
    /// The turnout over this track, its leg, and the end that is its stem.
    pub fn points(&self, station: &Station) -> Option<Points> {
        let (element, leg) = self.over[0].turnout?;
        match station.filed.elements.get(element - 1)? {
            ElementLine::Turnout { stem, .. } => Some(Points { element, leg, stem: usize::from(place(*stem) != self.ends[0]) }),
            ElementLine::Signal { .. } => None,
        }
    }

    /// 1 where only moves from the first end to the second have a line, -1 where only those back have one, 0 for both ways.
    pub fn one_way(&self) -> i32 {
        match (self.over[0].is_empty(), self.over[1].is_empty()) {
            (false, true) => 1,
            (true, false) => -1,
            _ => 0,
        }
    }

    /// The end that is not this section.
    pub fn other(&self, section: usize) -> usize {
        if self.ends[0] == section { self.ends[1] } else { self.ends[0] }
    }
}

/// The turnout over a track: its number, which leg the track is, and which end is the stem.
#[derive(Clone, Copy, Debug, PartialEq, Eq)]
pub struct Points {
    pub element: usize,
    pub leg: Leg,
    pub stem: usize,
}

/// A section counted from 0. Sections of a station that was read are from 1.
pub fn place(section: Section) -> usize {
    section.place().unwrap_or(0)
}

/// The tracks of a station, by their sections.
pub fn tracks(station: &Station) -> Vec<Track> {
    let mut tracks: BTreeMap<[usize; 2], Track> = BTreeMap::new();
    let mut over = |from: Section, to: Section, add: &dyn Fn(&mut Over)| {
        let (from, to) = (place(from), place(to));
        let ends = [from.min(to), from.max(to)];
        let track = tracks.entry(ends).or_insert_with(|| Track { ends, over: [Over::default(); 2] });
        add(&mut track.over[usize::from(from > to)]);
    };
    for (place, &(from, to)) in station.filed.plain.iter().enumerate() {
        over(from, to, &|over| over.plain = Some(place + 1));
    }
    for (number, element, _) in station.elements() {
        match *element {
            ElementLine::Signal { from, to, .. } => over(from, to, &|over| over.signal = Some(number)),
            ElementLine::Turnout { stem, straight, diverted, .. } => {
                for (leg, section) in [(Leg::Straight, straight), (Leg::Diverted, diverted)] {
                    over(stem, section, &|over| over.turnout = Some((number, leg)));
                    over(section, stem, &|over| over.turnout = Some((number, leg)));
                }
            }
        }
    }
    tracks.into_values().collect()
}

/// What the layout goes by: sections counted from 0, tracks, and the turnouts as stem and legs.
#[derive(Clone, Debug, Default)]
pub struct Graph {
    pub nodes: usize,
    /// Ends and direction of each track, as in [`Track`].
    pub tracks: Vec<([usize; 2], i32)>,
    /// Stem, straight leg, diverted leg.
    pub turnouts: Vec<[usize; 3]>,
    /// Of each node: its tracks, the legs of turnouts first, the straight leg before the diverted one.
    pub at: Vec<Vec<usize>>,
    /// Of each track that is a leg of a turnout: the turnout, and 1 for the straight leg, 2 for the diverted one.
    pub legs: Vec<Option<(usize, usize)>>,
    /// Of each track: whether a long train stands over it.
    pub coupled: Vec<bool>,
    /// The sections that a long train stands over one after the other, where no track joins them.
    pub linked: Vec<[usize; 2]>,
}

impl Graph {
    pub fn new(station: &Station, tracks: &[Track]) -> Graph {
        let nodes = station.sections();
        let mut graph = Graph { nodes, at: vec![vec![]; nodes], ..Graph::default() };
        let mut ranks: Vec<Vec<(u8, usize, usize)>> = vec![vec![]; nodes];
        for (number, track) in tracks.iter().enumerate() {
            graph.tracks.push((track.ends, track.one_way()));
            let rank = match track.over[0].turnout {
                Some((_, Leg::Straight)) => 0,
                Some((_, Leg::Diverted)) => 1,
                None => 2,
            };
            for end in track.ends {
                ranks[end].push((rank, track.other(end), number));
            }
        }
        for (node, mut ranked) in ranks.into_iter().enumerate() {
            ranked.sort_unstable();
            graph.at[node] = ranked.into_iter().map(|(_, _, track)| track).collect();
        }
        let between = |one: usize, two: usize| tracks.binary_search_by_key(&[one.min(two), one.max(two)], |track| track.ends).ok();
        graph.legs = vec![None; tracks.len()];
        for (_, element, _) in station.elements() {
            if let ElementLine::Turnout { stem, straight, diverted, .. } = *element {
                let sections = [stem, straight, diverted].map(place);
                for leg in [1, 2] {
                    if let Some(track) = between(sections[0], sections[leg]) {
                        graph.legs[track] = Some((graph.turnouts.len(), leg));
                    }
                }
                graph.turnouts.push(sections);
            }
        }
        graph.coupled = vec![false; tracks.len()];
        for (_, sections) in station.trains() {
            for [one, two] in sections.windows(2).map(|pair| [place(pair[0]), place(pair[1])]) {
                match between(one, two) {
                    Some(track) => graph.coupled[track] = true,
                    None => graph.linked.push([one, two]),
                }
            }
        }
        graph
    }

    /// 1 for the first end of a track, -1 for the second.
    pub fn sign(&self, track: usize, end: usize) -> i32 {
        if self.tracks[track].0[0] == end { 1 } else { -1 }
    }

    /// 1 where only moves away from an end have a line, -1 where only those towards it have one, 0 for both ways.
    pub fn away(&self, track: usize, end: usize) -> i32 {
        self.tracks[track].1 * self.sign(track, end)
    }

    /// The turnout that a track is a leg of and a section the stem.
    pub fn turnout_of_stem(&self, section: usize, track: usize) -> Option<usize> {
        self.legs[track].map(|(turnout, _)| turnout).filter(|&turnout| self.turnouts[turnout][0] == section)
    }

    /// Whether a track is the straight (1) or the diverted (2) leg of a turnout.
    pub fn is_leg(&self, track: usize, leg: usize) -> bool {
        self.legs.get(track).is_some_and(|found| found.is_some_and(|(_, found)| found == leg))
    }

    /// The tracks of a part, in rising order.
    pub fn tracks_of(&self, part: &[usize]) -> Vec<usize> {
        let mut tracks: Vec<usize> = part.iter().flat_map(|&node| self.at[node].iter().copied()).collect();
        tracks.sort_unstable();
        tracks.dedup();
        tracks
    }

    /// The end of a track that is not this node.
    pub fn other(&self, track: usize, node: usize) -> usize {
        let ends = self.tracks[track].0;
        if ends[0] == node { ends[1] } else { ends[0] }
    }

    /// The connected parts, each with its nodes in rising order, by their lowest nodes.
    pub fn components(&self) -> Vec<Vec<usize>> {
        let mut seen = vec![false; self.nodes];
        let mut components = Vec::new();
        for start in 0..self.nodes {
            if seen[start] {
                continue;
            }
            seen[start] = true;
            let mut part = vec![start];
            let mut next = 0;
            while next < part.len() {
                let node = part[next];
                next += 1;
                for &track in &self.at[node] {
                    let other = self.other(track, node);
                    if !seen[other] {
                        seen[other] = true;
                        part.push(other);
                    }
                }
            }
            part.sort_unstable();
            components.push(part);
        }
        components
    }
}

#[cfg(test)]
mod tests {
    use super::*;
    use crate::model::examples::station_k;

    #[test]
    fn both_directions_share_a_track() {
        let station = station_k();
        let tracks = tracks(&station);
        let ends: Vec<[usize; 2]> = tracks.iter().map(|track| track.ends).collect();
        assert_eq!(ends, [[0, 1], [1, 2], [1, 3], [2, 4], [3, 4]]);
        assert_eq!(tracks[0].over[0].signal, Some(1));
        assert_eq!(tracks[0].over[1].plain, Some(1));
        assert_eq!(tracks[1].points(&station), Some(Points { element: 2, leg: Leg::Straight, stem: 0 }));
        assert_eq!(tracks[3].one_way(), 1);
        assert_eq!(Graph::new(&station, &tracks).components(), [[0, 1, 2, 3, 4]]);
    }
}
