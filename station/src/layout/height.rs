//! How high everything stands, within the order of its layer. What goes straight on from layer to layer is one line at one height, and lines that tracks
//! join are as near to each other as there is room.

use std::ops::Range;

use super::graph::Graph;
use super::order::Levels;
use super::tight::{Joint, lowest, tighten};

/// Heights are multiples of this.
pub const STEP: f64 = 4.0;
/// The room above and below a bend.
const BEND: f64 = 12.0;
/// Of a node in other layers.
const NONE: usize = usize::MAX;
/// Of what goes straight on, from a bend to a bend to a diverted leg.
const RANKS: u8 = 4;
/// How much higher than its highest layer a part may be: by a share of that, and by some steps more.
const MOST_PUSHED: f64 = 1.5;
const MORE_PUSHED: f64 = 60.0;
/// What a joint that is not level is as bad as, in height.
const NOT_LEVEL: f64 = 60.0;
/// How much work a part may be: steps times what each of them looks at.
const WORK: usize = 300_000;

/// The room that each node takes: above and below its line, and along it.
#[derive(Clone, Copy, Debug, Default)]
pub struct Room {
    pub above: f64,
    pub below: f64,
    pub length: f64,
}

/// Puts the nodes and bends of some layers, which go from one layer up to another, at their heights.
pub fn put_heights(graph: &Graph, levels: &Levels, layers: Range<usize>, rooms: &[Room], height: &mut [f64]) {
    let room =
        |node: usize| rooms.get(node).copied().filter(|_| !levels.is_bend(node)).unwrap_or(Room { above: BEND, below: BEND, length: 0.0 });
    let apart = |pair: &[usize]| ((room(pair[0]).below + room(pair[1]).above) / STEP).ceil() as i64;
    let within = &levels.levels[layers];
    let highest = within.iter().map(|level| level.windows(2).map(apart).sum()).max().unwrap_or(0);
    // Straight lines through a tangle would push each other far apart.
    for ranks in [RANKS, 1, 0] {
        let next = straight_on(graph, levels, within, ranks);
        let (line, lines) = lines(within, &next);
        let order = within.iter().flat_map(|level| level.windows(2));
        let mut joints: Vec<Joint> =
            order.map(|pair| Joint { from: line[pair[0]], to: line[pair[1]], least: apart(pair), price: 0 }).collect();
        let place = lowest(lines, &joints);
        if ranks > 0 && place.iter().max().is_some_and(|&bottom| bottom as f64 > highest as f64 * MOST_PUSHED + MORE_PUSHED) {
            continue;
        }
        let place = near(graph, levels, within, &next, &line, &mut joints, lines);
        for &node in within.iter().flatten() {
            height[node] = place[line[node]] as f64 * STEP;
        }
        return;
    }
}

/// How steep the tracks are at some heights: each that is not level, and how far it goes up or down.
pub fn steepness(levels: &Levels, height: &[f64]) -> f64 {
    let joints = levels
        .levels
        .iter()
        .flatten()
        .flat_map(|&node| levels.right[node].iter().map(move |&(other, _)| (height[node] - height[other]).abs()));
    joints.filter(|&down| down > 0.0).map(|down| NOT_LEVEL + down).sum()
}

/// The places of lines that are kept in their order, as near as possible to those that tracks join them to.
fn near(
    graph: &Graph,
    levels: &Levels,
    within: &[Vec<usize>],
    next: &[Option<usize>],
    line: &[usize],
    joints: &mut Vec<Joint>,
    lines: usize,
) -> Vec<i64> {
    // A place above both lines: what it is away from the two is least where it is at the upper one.
    let mut places = lines;
    let mut join = |one: usize, two: usize, price: i64| {
        if line[one] != NONE && line[two] != NONE {
            joints.extend([one, two].map(|end| Joint { from: places, to: line[end], least: 0, price }));
            places += 1;
        }
    };
    for &node in within.iter().flatten() {
        for &(other, track) in levels.right[node].iter().filter(|&&(other, _)| next[node] != Some(other)) {
            join(node, other, price(graph, levels, [node, other], track));
        }
    }
    for &(_, [one, two]) in &levels.within {
        join(one, two, 1);
    }
    let mut place = lowest(places, joints);
    tighten(joints, &mut place, WORK / (places + joints.len() + 1));
    place
}

/// What it costs that a joint is not straight.
fn price(graph: &Graph, levels: &Levels, ends: [usize; 2], track: usize) -> i64 {
    if ends.iter().all(|&end| levels.is_bend(end)) {
        4
    } else if graph.is_leg(track, 2) {
        1
    } else {
        2
    }
}

/// Of each node, the one in the next layer that it goes straight on to: along a track over several layers, by the straight leg of a turnout, by a track
/// that is no diverted leg, or else by that, as far as the first of these ranks. None of these cross.
fn straight_on(graph: &Graph, levels: &Levels, within: &[Vec<usize>], ranks: u8) -> Vec<Option<usize>> {
    // Layer, and place within it.
    let mut at = vec![(NONE, 0); levels.left.len()];
    for (number, level) in within.iter().enumerate() {
        level.iter().enumerate().for_each(|(place, &node)| at[node] = (number, place));
    }
    let rank = |node: usize, other: usize, track: usize| match (levels.is_bend(node), levels.is_bend(other)) {
        (true, true) => 0,
        _ if graph.is_leg(track, 1) => 1,
        _ if graph.is_leg(track, 2) => 3,
        _ => 2,
    };
    let mut next = vec![None; levels.left.len()];
    let mut is_next = vec![false; levels.left.len()];
    for (number, level) in within.iter().enumerate() {
        let joints = level.iter().flat_map(|&node| levels.right[node].iter().map(move |&(other, track)| (node, other, track)));
        let next_to = joints.filter(|&(_, other, _)| at[other].0 == number + 1);
        let mut ranked: Vec<(u8, usize, usize)> = next_to.map(|(node, other, track)| (rank(node, other, track), node, other)).collect();
        ranked.sort_by_key(|&(rank, node, other)| (rank, at[node], at[other]));
        let mut chosen: Vec<(usize, usize)> = Vec::new();
        for (_, node, other) in ranked.into_iter().filter(|&(rank, _, _)| rank < ranks) {
            let places = (at[node].1, at[other].1);
            let crosses = |&(one, two): &(usize, usize)| (one < places.0) != (two < places.1);
            if next[node].is_none() && !is_next[other] && !chosen.iter().any(crosses) {
                next[node] = Some(other);
                is_next[other] = true;
                chosen.push(places);
            }
        }
    }
    next
}

/// The line of each node, and how many lines there are.
fn lines(within: &[Vec<usize>], next: &[Option<usize>]) -> (Vec<usize>, usize) {
    let mut line = vec![NONE; next.len()];
    let mut lines = 0;
    for &start in within.iter().flatten() {
        let mut node = Some(start).filter(|&start| line[start] == NONE);
        lines += usize::from(node.is_some());
        while let Some(here) = node {
            line[here] = lines - 1;
            node = next[here];
        }
    }
    (line, lines)
}

#[cfg(test)]
mod tests {
    use super::*;
    use crate::layout::graph::tracks;
    use crate::layout::layers::put_layers;
    use crate::model::Station;
    use crate::model::examples::{both_ways, station_k, station_of, turnout};
    use judge::State;

    fn heights_of(station: &Station) -> Vec<f64> {
        let graph = Graph::new(station, &tracks(station));
        let mut layer = vec![0; graph.nodes];
        let part: Vec<usize> = (0..graph.nodes).collect();
        put_layers(&graph, &part, &mut layer);
        let mut levels = Levels::new(&graph, &part, &layer);
        levels.untangle(&graph, &part, &mut |_| 0.0);
        let mut height = vec![0.0; levels.left.len()];
        put_heights(
            &graph,
            &levels,
            0..levels.levels.len(),
            &vec![Room { above: 40.0, below: 24.0, length: 90.0 }; graph.nodes],
            &mut height,
        );
        height
    }

    #[test]
    fn the_straight_way_is_straight() {
        let height = heights_of(&station_k());
        assert_eq!(height[0], height[1]);
        assert_eq!(height[1], height[2]);
        assert_eq!(height[2], height[4]);
        assert_eq!((height[3] - height[2]).abs(), 64.0);
    }

    #[test]
    fn platforms_are_parallel() {
        // Platforms 3 4 and 5 6 between stems 2 and 7; the straight legs are 3 and 6.
        let elements = vec![turnout(2, 3, 5, State::One), turnout(7, 6, 4, State::One)];
        let height = heights_of(&station_of(8, &both_ways(&[(1, 2), (3, 4), (5, 6), (7, 8)]), elements));
        assert_eq!((height[2], height[4]), (height[3], height[5]));
        assert_eq!((height[1], height[7]), (height[2], height[5]));
        assert_eq!((height[2] - height[4]).abs(), 64.0);
    }
}
