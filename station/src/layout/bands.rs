//! Layers side by side, with room for the tracks between them. Where they are many they are cut into bands below one another, as a text is cut into lines:
//! where few tracks are cut, and no long train, and no turnout from its legs.

use super::graph::Graph;
use super::order::Levels;
use super::{BETWEEN, Room, SHAPE, Side, bulge};

/// How far a track goes on where a band ends: bare, or with signals and turnouts; and the room for the number behind it.
const STUB: f64 = 40.0;
const FULL_STUB: f64 = 62.0;
const STUB_NUMBER: f64 = 54.0;
/// So much room a track has to go to the next line.
const SLOPE: f64 = 96.0;
/// A part that is not wider than this is not cut.
const UNCUT: f64 = 2200.0;
/// What it costs to cut a track; more for a turnout from its leg, and for a long train.
const CUT: f64 = 3.0;
const CUT_LEG: f64 = 6.0;
const CUT_TRAIN: f64 = 100.0;
/// What it costs that a band is wider than wanted, or narrower, by the square of its share.
const WIDER: f64 = 90.0;
const NARROWER: f64 = 16.0;
const NARROWER_AT_THE_END: f64 = 6.0;

/// The band and the left end of each layer.
#[derive(Clone, Debug, Default)]
pub struct Columns {
    pub band: Vec<usize>,
    pub x: Vec<f64>,
    /// How long the sections of each layer are.
    pub lengths: Vec<f64>,
    pub width: f64,
    /// How far tracks go on past the right end of each band, and come in at the left end of the next.
    pub stubs: Vec<f64>,
}

/// Puts the layers side by side, in bands that begin with the first and with each cut.
pub fn columns(levels: &Levels, height: &[f64], rooms: &[Room], needs: &[f64], cuts: &[usize]) -> Columns {
    let [out, before] = [Side::Right, Side::Left].map(|side| out(levels, height, needs, side));
    let mut columns = Columns { lengths: lengths(levels, rooms), ..Columns::default() };
    let mut x = before.first().copied().unwrap_or(0.0);
    for (number, gap) in gaps(levels, height, needs).into_iter().enumerate() {
        if cuts.contains(&number) {
            let stub = stub(levels, number, needs);
            columns.stubs.push(stub);
            x = (stub + STUB_NUMBER).max(before[number]);
        }
        columns.band.push(columns.stubs.len());
        columns.x.push(x);
        let stubs = if cuts.contains(&(number + 1)) { stub(levels, number + 1, needs) + STUB_NUMBER } else { 0.0 };
        columns.width = columns.width.max(x + columns.lengths[number] + out[number].max(stubs));
        x += columns.lengths[number] + gap;
    }
    columns
}

/// The longest section of each layer.
fn lengths(levels: &Levels, rooms: &[Room]) -> Vec<f64> {
    let length = |node: &usize| rooms.get(*node).filter(|_| !levels.is_bend(*node)).map_or(0.0, |room| room.length);
    levels.levels.iter().map(|level| level.iter().map(length).fold(0.0, f64::max)).collect()
}

/// The room to the right of each layer.
fn gaps(levels: &Levels, height: &[f64], needs: &[f64]) -> Vec<f64> {
    let [out, before] = [Side::Right, Side::Left].map(|side| out(levels, height, needs, side));
    let beside = |number: usize| out[number] + before.get(number + 1).copied().unwrap_or(0.0) + 20.0;
    (0..levels.levels.len()).map(|number| gap(levels, number, height, needs).max(beside(number))).collect()
}

/// How far tracks between sections of a layer go out on a side of it.
fn out(levels: &Levels, height: &[f64], needs: &[f64], side: Side) -> Vec<f64> {
    let mut room = vec![0.0_f64; levels.left.len()];
    for &(track, [one, two]) in levels.within.iter().filter(|(track, _)| levels.turns[*track] == side) {
        room[one] = room[one].max(bulge(height[one] - height[two]) + 24.0).max(needs[track] * 0.6);
    }
    levels.levels.iter().map(|level| level.iter().map(|&node| room[node]).fold(0.0, f64::max)).collect()
}

/// The room that the tracks to the right of a layer need.
fn gap(levels: &Levels, number: usize, height: &[f64], needs: &[f64]) -> f64 {
    let (mut need, mut steep, mut sloping) = (24.0_f64, 0.0_f64, 0);
    for &node in &levels.levels[number] {
        for &(other, track) in &levels.right[node] {
            let at_section = !levels.is_bend(node) || !levels.is_bend(other);
            need = need.max(if at_section { needs[track] } else { 40.0 });
            steep = steep.max((height[node] - height[other]).abs());
            sloping += i32::from(height[node] != height[other]);
        }
    }
    let crowd = (f64::from(sloping) * 1.5).min(420.0);
    (need + crowd).max((steep * 1.3).min(SLOPE)).max(steep * 0.5).min(need + 520.0)
}

/// How far the tracks that are cut before a layer go on.
fn stub(levels: &Levels, number: usize, needs: &[f64]) -> f64 {
    let mut tracks = levels.levels[number].iter().flat_map(|&node| &levels.left[node]).map(|&(_, track)| track);
    if tracks.any(|track| needs[track] > 80.0) { FULL_STUB } else { STUB }
}

/// What it costs to cut before a layer.
fn price(graph: &Graph, levels: &Levels, number: usize) -> f64 {
    let of_joint = |node: usize, other: usize, track: usize| {
        let stem = graph.legs[track].map(|(turnout, _)| graph.turnouts[turnout][0]);
        let leg = stem.is_some_and(|stem| stem == node || stem == other);
        CUT + if leg { CUT_LEG } else { 0.0 } + if graph.coupled[track] { CUT_TRAIN } else { 0.0 }
    };
    let joints = levels.levels[number].iter().flat_map(|&node| levels.left[node].iter().map(move |&(other, track)| (node, other, track)));
    let is_here = |node: usize| levels.levels[levels.level[node]].contains(&node);
    let is_left = |node: usize| levels.level[node] < number;
    let is_parted = |&&[one, two]: &&[usize; 2]| is_left(one) != is_left(two) && is_here(one) && is_here(two);
    let parted = graph.linked.iter().filter(is_parted).count();
    joints.map(|(node, other, track)| of_joint(node, other, track)).sum::<f64>() + CUT_TRAIN * parted as f64
}

/// The layers that begin a band, but the first, in rising order: the cheapest of all cuts. With what the layers of the whole would be as one band.
pub fn cuts(graph: &Graph, levels: &Levels, height: &[f64], rooms: &[Room], needs: &[f64], tall: f64) -> Vec<usize> {
    let depth = levels.levels.len();
    let gaps = gaps(levels, height, needs);
    let mut starts = vec![0.0];
    for (gap, length) in gaps.iter().zip(lengths(levels, rooms)) {
        starts.push(starts[starts.len() - 1] + length + gap);
    }
    let whole = starts[depth] - gaps[depth - 1];
    let bands = (whole / (SHAPE * (tall + BETWEEN))).sqrt().round();
    if whole <= UNCUT || bands < 2.0 {
        return vec![];
    }
    let wanted = (whole / bands).max(UNCUT * 0.6);
    let prices: Vec<f64> = (0..depth).map(|number| price(graph, levels, number)).collect();
    let cost = |from: usize, to: usize| {
        let stubs = [from > 0, to < depth].into_iter().filter(|&cut| cut).count() as f64 * FULL_STUB;
        let share = (starts[to] - starts[from] - gaps[to - 1] + stubs) / wanted - 1.0;
        let dear = match to {
            _ if share > 0.0 => WIDER,
            _ if to == depth => NARROWER_AT_THE_END,
            _ => NARROWER,
        };
        prices[from] + dear * share * share
    };
    // Of the layers up to each: the least cost, and where their last band begins.
    let mut best = vec![(0.0, 0)];
    for to in 1..=depth {
        let tries = (0..to).map(|from| (best[from].0 + cost(from, to), from));
        best.push(tries.min_by(|one, two| one.0.total_cmp(&two.0)).unwrap_or_default());
    }
    let back = std::iter::successors(Some(best[depth].1), |&from| Some(best[from].1));
    let mut cuts: Vec<usize> = back.take_while(|&from| from > 0).collect();
    cuts.reverse();
    cuts
}

#[cfg(test)]
mod tests {
    use super::*;
    use crate::layout::graph::tracks;
    use crate::layout::layers::put_layers;
    use crate::model::Station;
    use crate::model::examples::{both_ways, station_of, turnout};
    use judge::{Section, State};

    /// The sections, counted from 1, that begin a band.
    fn cut_before(station: &Station) -> Vec<usize> {
        let graph = Graph::new(station, &tracks(station));
        let part: Vec<usize> = (0..graph.nodes).collect();
        let mut layer = vec![0; graph.nodes];
        put_layers(&graph, &part, &mut layer);
        let levels = Levels::new(&graph, &part, &layer);
        let height = vec![0.0; levels.left.len()];
        let rooms = vec![Room { above: 32.0, below: 24.0, length: 90.0 }; graph.nodes];
        let cuts = cuts(&graph, &levels, &height, &rooms, &vec![100.0; graph.tracks.len()], 100.0);
        cuts.iter().flat_map(|&number| levels.levels[number].iter().map(|node| node + 1)).collect()
    }

    fn chain(sections: u16) -> Vec<(u16, u16)> {
        both_ways(&(1..sections).map(|section| (section, section + 1)).collect::<Vec<_>>())
    }

    #[test]
    fn no_long_train_is_cut() {
        let mut filed = station_of(16, &chain(16), vec![]).filed;
        let bare = cut_before(&Station::new(filed.clone()));
        assert_eq!(bare.len(), 1);
        // A train over two sections that a track joins, and one over two that none joins.
        for (section, next) in bare.iter().flat_map(|&section| [(section, section), (section, section + 1)]) {
            let train = [section - 1, next].map(|section| Section(u16::try_from(section).expect("a section")));
            filed.trains = vec![train.to_vec()];
            let cuts = cut_before(&Station::new(filed.clone()));
            assert!(!cuts.iter().any(|cut| (section..=next).contains(cut)), "{cuts:?}");
        }
    }

    #[test]
    fn where_there_is_one_track_it_is_cut() {
        // Platforms 6 and 17, 7 and 18, 8 and 19, between the stems 5 and 9; the rest is one line.
        let plain: Vec<(u16, u16)> = [(1, 2), (2, 3), (3, 4), (4, 5), (6, 7), (7, 8), (17, 18), (18, 19)]
            .into_iter()
            .chain((9..16).map(|section| (section, section + 1)))
            .collect();
        let elements = vec![turnout(5, 6, 17, State::One), turnout(9, 8, 19, State::One)];
        let cuts = cut_before(&station_of(19, &both_ways(&plain), elements));
        assert!(!cuts.is_empty() && cuts.iter().all(|section| !(6..=9).contains(section)), "{cuts:?}");
    }
}
