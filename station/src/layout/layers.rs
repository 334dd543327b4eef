//! From left to right: the layer of each section. What is joined to the left end of a section stands left of it, what is joined to the right end right of it,
//! and tracks are as short as that allows.

use std::collections::VecDeque;

use super::Side;
use super::ends::{Bonds, Ends, directions, mended, turned};
use super::graph::Graph;
use super::tight::{Joint, leads_on, lowest, tighten};

/// What an arrangement costs beside its broken bonds: tracks between sections of one layer, tracks over several layers, moves from right to left; and
/// what is over a number of layers for each section, which only a tangle has.
const SAME_LAYER: i64 = 22;
const EACH_FURTHER: i64 = 10;
const TO_THE_LEFT: i64 = 3;
const TANGLED: i64 = 200;
const FURTHER_FOR_EACH: i64 = 3;
/// With so many layers over that number, for each section, an arrangement by ends is not looked at further.
const HOPELESS: i64 = 12;

/// A section of more tracks than this has no ends to speak of.
const CROWDED: usize = 8;
/// How often each section is tried in other layers, at most and by the number of tracks.
const PASSES: usize = 4;
const PASSES_WORK: usize = 1_500;
/// How much work it may be to make tracks shorter: steps times what each of them looks at.
const WORK: usize = 300_000;

/// How many other layers are tried for bonds that need not be broken, by the number of sections.
const MENDED_WORK: usize = 4_000;

/// A way to put the nodes of a connected part into layers.
type Put = fn(&Graph, &[usize], &Bonds, &mut [i32]);

/// The layers of the nodes of a connected part, from 0. Other nodes keep what `layer` has.
pub fn put_layers(graph: &Graph, part: &[usize], layer: &mut [i32]) {
    let bonds = Bonds::new(graph);
    let hopeless = HOPELESS * part.len() as i64;
    let mut best: Option<(i64, Vec<i32>)> = None;
    // A part full of rings is better without regard to ends: then all goes outwards from a section at its edge. In a tangle ends are not tried twice.
    let mut is_tangle = false;
    for (put, most) in [(by_ends as Put, hopeless), (with_turns, hopeless), (outwards, i64::MAX)] {
        if is_tangle && most == hopeless {
            continue;
        }
        put(graph, part, &bonds, layer);
        if tangled(graph, part, layer) > most {
            is_tangle = true;
            continue;
        }
        improve(graph, part, &bonds, layer);
        let cost = cost(graph, part, &bonds, layer);
        if best.as_ref().is_none_or(|(least, _)| cost < *least) {
            best = Some((cost, part.iter().map(|&node| layer[node]).collect()));
        }
    }
    for (&node, chosen) in part.iter().zip(best.map_or(vec![], |(_, chosen)| chosen)) {
        layer[node] = chosen;
    }
    if !is_tangle {
        mend(graph, part, &bonds, layer);
    }
    to_the_right(graph, part, layer);
    pack(part, layer);
}

/// By the ends at which tracks are joined to sections.
fn by_ends(graph: &Graph, part: &[usize], bonds: &Bonds, layer: &mut [i32]) {
    let ends: Ends = directions(graph, part, bonds).into_iter().map(|direction| [direction, -direction]).collect();
    put_by_ends(graph, part, &ends, layer);
}

/// By the ends too, where tracks turn in place of sections that would fold.
fn with_turns(graph: &Graph, part: &[usize], bonds: &Bonds, layer: &mut [i32]) {
    if !turned(graph, part, bonds).is_some_and(|ends| put_by_ends(graph, part, &ends, layer)) {
        by_ends(graph, part, bonds, layer);
    }
}

/// By the ends at which each track joins its two sections, 1 being the right one: a track that joins two right or two left ends has both sections in one
/// layer. Nothing is done where some way to the right would come back.
fn put_by_ends(graph: &Graph, part: &[usize], ends: &Ends, layer: &mut [i32]) -> bool {
    let tracks = graph.tracks_of(part);
    // The layer of each node is that of the first node that turns join it to.
    let mut first: Vec<usize> = (0..graph.nodes).collect();
    let mut changed = true;
    while changed {
        changed = false;
        for &track in tracks.iter().filter(|&&track| ends[track][0] == ends[track][1]) {
            let [one, two] = graph.tracks[track].0;
            let lower = first[one].min(first[two]);
            changed |= first[one] != first[two];
            (first[one], first[two]) = (lower, lower);
        }
    }
    let mut groups: Vec<usize> = part.iter().map(|&node| first[node]).collect();
    groups.sort_unstable();
    groups.dedup();
    let group = |node: usize| groups.binary_search(&first[node]).unwrap_or(0);
    let joint = |&track: &usize| {
        let [one, two] = graph.tracks[track].0.map(group);
        let (from, to) = if ends[track][0] > 0 { (one, two) } else { (two, one) };
        Joint { from, to, least: 1, price: 1 }
    };
    let joints: Vec<Joint> = tracks.iter().filter(|&&track| ends[track][0] != ends[track][1]).map(joint).collect();
    if !leads_on(groups.len(), &joints) {
        return false;
    }
    let mut place = lowest(groups.len(), &joints);
    if groups.len() > 1 {
        tighten(&joints, &mut place, WORK / (groups.len() + joints.len()));
    }
    for &node in part {
        layer[node] = i32::try_from(place[group(node)]).unwrap_or(0);
    }
    true
}

/// Keeps bonds that are broken though those that are kept do not contradict them, as long as less is broken in all.
fn mend(graph: &Graph, part: &[usize], bonds: &Bonds, layer: &mut [i32]) {
    let all_broken = |layer: &[i32]| -> i64 { part.iter().map(|&node| broken(graph, bonds, layer, node)).sum() };
    let mut least = all_broken(layer);
    let mut tries = MENDED_WORK / part.len();
    loop {
        let side = |track: usize, node: usize| match (layer[graph.other(track, node)] - layer[node]).signum() {
            0 if side_of_turn(graph, bonds, layer, track) == Side::Right => 1,
            0 => -1,
            side => side,
        };
        let ends: Ends = (0..graph.tracks.len()).map(|track| graph.tracks[track].0.map(|node| side(track, node))).collect();
        let ways = mended(graph, part, bonds, &ends);
        let better = ways.into_iter().take(tries).find_map(|ends| {
            tries -= 1;
            let mut then = layer.to_vec();
            if !put_by_ends(graph, part, &ends, &mut then) {
                return None;
            }
            improve(graph, part, bonds, &mut then);
            (all_broken(&then) < least && tangled(graph, part, &then) == 0).then_some(then)
        });
        let Some(better) = better else { return };
        least = all_broken(&better);
        layer.copy_from_slice(&better);
    }
}

/// By the distance from a section at the edge.
fn outwards(graph: &Graph, part: &[usize], _: &Bonds, layer: &mut [i32]) {
    let Some(&first) = part.first() else { return };
    let edge = |distance: Vec<i32>| part.iter().copied().max_by_key(|&node| (distance[node], usize::MAX - node)).unwrap_or(first);
    let one = edge(distances(graph, first));
    let two = edge(distances(graph, one));
    let distance = distances(graph, one.min(two));
    for &node in part {
        layer[node] = distance[node];
    }
}

/// How far nodes are from another; -1 where there is no way.
fn distances(graph: &Graph, start: usize) -> Vec<i32> {
    let mut distance = vec![-1; graph.nodes];
    distance[start] = 0;
    let mut queue = VecDeque::from([start]);
    while let Some(node) = queue.pop_front() {
        for &track in &graph.at[node] {
            let other = graph.other(track, node);
            if distance[other] < 0 {
                distance[other] = distance[node] + 1;
                queue.push_back(other);
            }
        }
    }
    distance
}

/// The cost of an arrangement.
fn cost(graph: &Graph, part: &[usize], bonds: &Bonds, layer: &[i32]) -> i64 {
    let of_nodes: i64 = part.iter().map(|&node| cost_at(graph, layer, node) + broken(graph, bonds, layer, node)).sum();
    of_nodes + TANGLED * tangled(graph, part, layer)
}

/// How many layers more than a few for each section the tracks pass.
fn tangled(graph: &Graph, part: &[usize], layer: &[i32]) -> i64 {
    let layers = |track: usize| {
        let [one, two] = graph.tracks[track].0;
        i64::from((layer[one] - layer[two]).abs())
    };
    let all: i64 = graph.tracks_of(part).into_iter().map(layers).sum();
    (all - FURTHER_FOR_EACH * part.len() as i64).max(0)
}

/// The cost of the tracks at a node.
fn cost_at(graph: &Graph, layer: &[i32], node: usize) -> i64 {
    let mut cost = 0;
    for &track in &graph.at[node] {
        let (ends, one_way) = graph.tracks[track];
        let step = layer[ends[1]] - layer[ends[0]];
        cost += match step.abs() {
            0 => SAME_LAYER,
            far => EACH_FURTHER * i64::from(far - 1),
        };
        if step * one_way < 0 {
            cost += TO_THE_LEFT;
        }
    }
    cost
}

/// The broken bonds of a node.
fn broken(graph: &Graph, bonds: &Bonds, layer: &[i32], node: usize) -> i64 {
    bonds.broken(node, &|track| match (layer[graph.other(track, node)] - layer[node]).signum() {
        0 => {
            if side_of_turn(graph, bonds, layer, track) == Side::Right {
                1
            } else {
                -1
            }
        }
        side => side,
    })
}

/// Whether a track between sections of one layer joins their right or their left ends: where it breaks less, with other such tracks at the right; at sections
/// of many tracks always the right ones.
pub fn side_of_turn(graph: &Graph, bonds: &Bonds, layer: &[i32], track: usize) -> Side {
    if graph.tracks[track].0.into_iter().any(|node| graph.at[node].len() > CROWDED) {
        return Side::Right;
    }
    let at = |node: usize| bonds.pull(node, track, &|other| if layer[graph.other(other, node)] >= layer[node] { 1 } else { -1 });
    let right: i64 = graph.tracks[track].0.into_iter().map(at).sum();
    if right < 0 { Side::Left } else { Side::Right }
}

/// Moves single nodes to the layer where they cost least, until nothing is gained.
fn improve(graph: &Graph, part: &[usize], bonds: &Bonds, layer: &mut [i32]) {
    for _ in 0..(PASSES_WORK / graph.tracks.len().max(1)).clamp(1, PASSES) {
        let mut changed = false;
        for &node in part {
            let now = layer[node];
            let beside: Vec<usize> = graph.at[node].iter().map(|&track| graph.other(track, node)).collect();
            let mut tries: Vec<i32> = beside.iter().flat_map(|&other| [layer[other] - 1, layer[other] + 1]).collect();
            tries.sort_unstable();
            tries.dedup();
            let cost = |layer: &[i32]| {
                let around = beside.iter().chain([&node]).map(|&other| broken(graph, bonds, layer, other));
                cost_at(graph, layer, node) + around.sum::<i64>()
            };
            let (mut least, mut chosen) = (cost(layer), now);
            for next in tries {
                layer[node] = next;
                let cost = cost(layer);
                if cost < least {
                    (least, chosen) = (cost, next);
                }
            }
            layer[node] = chosen;
            changed |= chosen != now;
        }
        if !changed {
            break;
        }
    }
}

/// Mirrors the part where more moves would then go from left to right; where none is one-way, where lower numbers would then be on the left.
fn to_the_right(graph: &Graph, part: &[usize], layer: &mut [i32]) {
    let mut way = 0;
    for &node in part {
        for &track in &graph.at[node] {
            let (ends, one_way) = graph.tracks[track];
            way += i64::from((layer[ends[1]] - layer[ends[0]]).signum() * one_way);
        }
    }
    if way == 0 {
        let count = part.len() as i64;
        let nodes: i64 = part.iter().map(|&node| node as i64).sum();
        let layers: i64 = part.iter().map(|&node| i64::from(layer[node])).sum();
        let both: i64 = part.iter().map(|&node| node as i64 * i64::from(layer[node])).sum();
        way = count * both - nodes * layers;
    }
    if way < 0 {
        for &node in part {
            layer[node] = -layer[node];
        }
    }
}

/// Numbers the layers that are used from 0.
fn pack(part: &[usize], layer: &mut [i32]) {
    let mut used: Vec<i32> = part.iter().map(|&node| layer[node]).collect();
    used.sort_unstable();
    used.dedup();
    for &node in part {
        let place = used.partition_point(|&other| other < layer[node]);
        layer[node] = i32::try_from(place).unwrap_or(i32::MAX);
    }
}

#[cfg(test)]
mod tests {
    use super::*;
    use crate::layout::graph::tracks;
    use crate::model::Station;
    use crate::model::examples::{both_ways, signal, station_k, station_of, turnout};
    use judge::State;

    fn layers_of(station: &Station) -> Vec<i32> {
        let tracks = tracks(station);
        let graph = Graph::new(station, &tracks);
        let mut layer = vec![0; graph.nodes];
        for part in graph.components() {
            put_layers(&graph, &part, &mut layer);
        }
        layer
    }

    #[test]
    fn station_k_goes_from_left_to_right() {
        assert_eq!(layers_of(&station_k()), [0, 1, 2, 2, 3]);
    }

    #[test]
    fn a_line_joins_from_the_left() {
        // 4 joins at 2, one way.
        assert_eq!(layers_of(&station_of(4, &[(1, 2), (2, 3), (4, 2)], vec![])), [0, 1, 2, 0]);
    }

    #[test]
    fn both_legs_are_on_one_side() {
        // The stem 2 is reached by its leg 1; its other leg 3 goes on to 4.
        let layer = layers_of(&station_of(4, &[(3, 4), (4, 3)], vec![turnout(2, 1, 3, State::One)]));
        assert_eq!((layer[0] - layer[1]).signum(), (layer[2] - layer[1]).signum());
    }

    /// How much is broken in a station as its layers are.
    fn broken_in(station: &Station) -> i64 {
        let layer = layers_of(station);
        let graph = Graph::new(station, &tracks(station));
        let bonds = Bonds::new(&graph);
        (0..graph.nodes).map(|node| broken(&graph, &bonds, &layer, node)).sum()
    }

    #[test]
    fn a_ring_turns_at_both_of_its_ends() {
        for sections in [4, 7, 12] {
            let ring: Vec<(u16, u16)> = (1..=sections).map(|section| (section, section % sections + 1)).collect();
            let station = station_of(sections, &ring, vec![]);
            assert_eq!(broken_in(&station), 0, "{sections}");
            assert_eq!(layers_of(&station).iter().max(), Some(&(i32::from(sections.div_ceil(2)) - 1)), "{sections}");
        }
    }

    #[test]
    fn a_triangle_of_turnouts_needs_no_fold() {
        let plain = both_ways(&[(1, 2), (3, 4), (5, 6)]);
        let elements = vec![turnout(2, 7, 8, State::One), turnout(4, 7, 9, State::One), turnout(6, 8, 9, State::One)];
        assert_eq!(broken_in(&station_of(9, &plain, elements)), 0);
    }

    #[test]
    fn parallel_lines_run_the_same_way() {
        // Lines 1 to 5 and 6 to 10, joined by a turnout from 2 to 8: 7 stays left of 8, and 9 right of it.
        let plain = both_ways(&[1, 3, 4, 6, 7, 8, 9].map(|section| (section, section + 1)));
        let layer = layers_of(&station_of(10, &plain, vec![turnout(2, 3, 8, State::One)]));
        assert_eq!(layer, [0, 1, 2, 3, 4, 0, 1, 2, 3, 4]);
    }

    #[test]
    fn sections_of_a_triangle_stand_in_a_row() {
        let layer = layers_of(&station_of(3, &[(1, 2), (1, 3)], vec![signal(2, 3, State::One)]));
        assert_eq!(layer, [0, 1, 2]);
    }

    /// Platforms between two ladders of turnouts, from one line to one line.
    fn ladders(platforms: u16) -> Station {
        let (mut plain, mut elements, mut ends) = (vec![(1, 2)], Vec::new(), Vec::new());
        let (mut lead, mut last) = (2, 2);
        for platform in 1..=platforms {
            let track = if platform < platforms {
                elements.push(turnout(lead, last + 1, last + 2, State::One));
                lead = last + 2;
                last += 2;
                last - 1
            } else {
                lead
            };
            plain.push((track, last + 1));
            last += 1;
            ends.push(last);
        }
        let mut end = ends.pop().unwrap_or(last);
        for other in ends.into_iter().rev() {
            last += 1;
            elements.push(turnout(last, other, end, State::One));
            end = last;
        }
        plain.push((end, last + 1));
        station_of(last + 1, &both_ways(&plain), elements)
    }

    #[test]
    fn ladders_keep_the_ends_of_every_section() {
        for platforms in 2..12 {
            assert_eq!(broken_in(&ladders(platforms)), 0, "{platforms}");
        }
    }

    #[test]
    fn a_turning_loop_turns_between_two_sections() {
        // 4 to 9 are a loop from the one leg of 3 to the other: 6 and 7 stand one above the other.
        let plain = both_ways(&[(1, 2), (2, 3), (4, 5), (5, 6), (6, 7), (7, 8), (8, 9)]);
        let layer = layers_of(&station_of(9, &plain, vec![turnout(3, 4, 9, State::One)]));
        assert_eq!(layer, [0, 1, 2, 3, 4, 5, 5, 4, 3]);
    }
}
