//! A layout by positions that are given. They say where the sections stand to one another: the picture is as large, to the right and downwards, as labels and
//! tracks need.

use super::curve::{Curve, Point, point};
use super::ends::Bonds;
use super::graph::Graph;
use super::layers::side_of_turn;
use super::{Layout, Room, Side, Way, bulge};

/// Between sections of one height that no track joins, and between the ends of two that one joins, at least.
const APART: f64 = 24.0;
const CLOSEST: f64 = 12.0;
/// Sections whose heights differ by less than this share of the whole stand in one row.
const SAME: f64 = 1e-6;
/// The picture becomes no wider and no higher than this, however near to each other two sections are.
const LARGEST: f64 = 12_000.0;
/// How far a track that would run over a section goes round it, at first; the room that it takes to do so, and to go from row to row.
const ASIDE: f64 = 36.0;
const TO_THE_SIDE: f64 = 48.0;
const SLOPE: f64 = 130.0;
const TRIES: i32 = 6;

/// Lays out sections whose middles stand to one another as the positions do, one for each section.
pub fn placed(graph: &Graph, rooms: &[Room], needs: &[f64], positions: &[Point]) -> Layout {
    let lengths: Vec<f64> = rooms.iter().map(|room| room.length).collect();
    let middles = scaled(graph, rooms, needs, positions);
    let left = middles.iter().zip(&lengths).map(|(at, length)| at.x - length / 2.0).fold(f64::MAX, f64::min);
    let top = middles.iter().zip(rooms).map(|(at, room)| at.y - room.above).fold(f64::MAX, f64::min);
    let sections: Vec<Point> = middles.iter().zip(&lengths).map(|(at, length)| *at - point(left + length / 2.0, top)).collect();
    let mut layout = Layout { sections, lengths, ..Layout::default() };
    let bonds = Bonds::new(graph);
    let column: Vec<i32> = middles.iter().map(|at| at.x.round() as i32).collect();
    let turn = |track: usize| side_of_turn(graph, &bonds, &column, track);
    layout.ways = (0..graph.tracks.len()).map(|track| way(&layout, graph.tracks[track].0, turn(track))).collect();
    let ends = layout.sections.iter().zip(&layout.lengths).map(|(at, length)| at.x + length);
    layout.width = ends.chain(points(&layout).map(|p| p.x)).fold(0.0, f64::max);
    let feet = layout.sections.iter().zip(rooms).map(|(at, room)| at.y + room.below);
    layout.height = feet.chain(points(&layout).map(|p| p.y + ASIDE / 2.0)).fold(0.0, f64::max);
    // A track that goes round may be left of all sections, or above them.
    let by = points(&layout).fold(Point::default(), |by, p| point(by.x.max(-p.x), by.y.max(ASIDE / 2.0 - p.y)));
    layout.sections.iter_mut().for_each(|at| *at = *at + by);
    layout.ways.iter_mut().flat_map(|way| &mut way.curves).for_each(|curve| *curve = curve.shifted(by));
    layout.width += by.x;
    layout.height += by.y;
    layout
}

/// Points along all tracks.
fn points(layout: &Layout) -> impl Iterator<Item = Point> + '_ {
    layout.ways.iter().flat_map(|way| &way.curves).flat_map(|curve| (0..=8).map(|step| curve.at(f64::from(step) / 8.0)))
}

/// The middles of the sections: the positions, so far apart that sections of one row have room beside each other, and others above each other.
fn scaled(graph: &Graph, rooms: &[Room], needs: &[f64], positions: &[Point]) -> Vec<Point> {
    let span = |of: fn(&Point) -> f64| {
        let (low, high) = positions.iter().map(of).fold((f64::MAX, f64::MIN), |(low, high), x| (low.min(x), high.max(x)));
        (high - low).max(0.0)
    };
    let (wide, high) = (span(|p| p.x), span(|p| p.y));
    let half = |one: usize, two: usize| (rooms[one].length + rooms[two].length) / 2.0;
    let same_row = |one: usize, two: usize| (positions[one].y - positions[two].y).abs() <= high * SAME;
    let pairs = || (0..graph.nodes).flat_map(|one| (0..one).map(move |two| (one, two)));
    let across = |one: usize, two: usize| (positions[one].x - positions[two].x).abs();
    let mut right: f64 = 0.0;
    for (one, two) in pairs().filter(|&(one, two)| same_row(one, two) && across(one, two) > 0.0) {
        right = right.max((half(one, two) + APART) / across(one, two));
    }
    // A joined section that is nearer to the right than up or down has the room for its track.
    for (&(ends, _), need) in graph.tracks.iter().zip(needs) {
        let [one, two] = ends;
        let down = (positions[one].y - positions[two].y).abs();
        if same_row(one, two) && across(one, two) > 0.0 {
            right = right.max((half(one, two) + need) / across(one, two));
        } else if across(one, two) * high > down * wide * 0.1 {
            right = right.max((half(one, two) + CLOSEST * 5.0) / across(one, two));
        }
    }
    right = if wide > 0.0 { right.min(LARGEST / wide) } else { right };
    let mut down: f64 = 0.0;
    for (one, two) in pairs().filter(|&(one, two)| !same_row(one, two) && across(one, two) * right < half(one, two) + APART) {
        let (above, below) = if positions[one].y < positions[two].y { (one, two) } else { (two, one) };
        down = down.max((rooms[above].below + rooms[below].above) / (positions[below].y - positions[above].y));
    }
    if down == 0.0 && high > 0.0 {
        down = right;
    }
    down = if high > 0.0 { down.min(LARGEST / high) } else { down };
    positions.iter().map(|at| point(at.x * right, at.y * down)).collect()
}

/// A track from the right end of the section that is farther left to the left end of the other; where these stand above each other, one that turns on a side.
fn way(layout: &Layout, ends: [usize; 2], turn: Side) -> Way {
    let middle = |section: usize| layout.sections[section].x + layout.lengths[section] / 2.0;
    let right_end = |section: usize| layout.sections[section] + point(layout.lengths[section], 0.0);
    let reversed = middle(ends[0]) > middle(ends[1]);
    let [left, right] = if reversed { [ends[1], ends[0]] } else { ends };
    let (from, to) = (right_end(left), layout.sections[right]);
    if to.x - from.x < CLOSEST {
        let (from, to, out) = match turn {
            Side::Right => (right_end(left), right_end(right), 1.0),
            Side::Left => (layout.sections[left], layout.sections[right], -1.0),
        };
        let curves = vec![Curve::around(from, to, out * (bulge(to.y - from.y) + (to.x - from.x).abs() * 0.75))];
        return Way { curves, reversed, turn: Some(turn), stubs: vec![] };
    }
    let direct = vec![Curve::level(from, to)];
    // Along the row of the one end as far as the other, or beside both.
    let share = SLOPE.min((to.x - from.x) / 2.0);
    let (late, early) = (point(to.x - share, from.y), point(from.x + share, to.y));
    let along = [vec![Curve::line(from, late), Curve::level(late, to)], vec![Curve::level(from, early), Curve::line(early, to)]];
    let aside = (1..=TRIES).flat_map(|tries| [-1.0, 1.0].map(|side| round(from, to, side * ASIDE * f64::from(tries))));
    let ways = std::iter::once(direct.clone()).chain(along).chain(aside);
    let curves = ways.into_iter().find(|curves| is_free(layout, [left, right], curves)).unwrap_or(direct);
    Way { curves, reversed, turn: None, stubs: vec![] }
}

/// A track that runs beside the straight line between two ends.
fn round(from: Point, to: Point, by: f64) -> Vec<Curve> {
    let share = TO_THE_SIDE.min((to.x - from.x) / 3.0);
    let height = if by < 0.0 { from.y.min(to.y) + by } else { from.y.max(to.y) + by };
    let (one, two) = (point(from.x + share, height), point(to.x - share, height));
    vec![Curve::level(from, one), Curve::line(one, two), Curve::level(two, to)]
}

/// Whether a track runs over no section but its own.
fn is_free(layout: &Layout, ends: [usize; 2], curves: &[Curve]) -> bool {
    let steps = |curve: &Curve| (curve.length() / 12.0).clamp(4.0, 400.0).round() as u32;
    let points: Vec<Point> =
        curves.iter().flat_map(|curve| (0..=steps(curve)).map(|step| curve.at(f64::from(step) / f64::from(steps(curve))))).collect();
    let covers = |section: usize, p: &Point| {
        let at = layout.sections[section];
        (p.y - at.y).abs() < CLOSEST && p.x > at.x - CLOSEST / 2.0 && p.x < at.x + layout.lengths[section] + CLOSEST / 2.0
    };
    (0..layout.sections.len()).filter(|section| !ends.contains(section)).all(|section| !points.iter().any(|p| covers(section, p)))
}

#[cfg(test)]
mod tests {
    use super::*;
    use crate::layout::graph::tracks;
    use crate::model::examples::{both_ways, station_k, station_of};

    fn laid_out(station: &crate::model::Station, positions: &[(f64, f64)]) -> Layout {
        let graph = Graph::new(station, &tracks(station));
        let rooms = vec![Room { above: 32.0, below: 24.0, length: 60.0 }; graph.nodes];
        let positions: Vec<Point> = positions.iter().map(|&(x, y)| point(x, y)).collect();
        placed(&graph, &rooms, &vec![80.0; graph.tracks.len()], &positions)
    }

    #[test]
    fn sections_stand_as_their_positions_do() {
        // The unit is of no account, nor where the positions begin.
        for unit in [0.01, 1.0, 250.0] {
            let positions = [(0.0, 0.0), (1.0, 0.0), (2.0, 0.0), (2.0, -1.0), (3.0, 0.0)].map(|(x, y)| (x * unit - 7.0, y * unit + 3.0));
            let at = laid_out(&station_k(), &positions).sections;
            assert!((at[0].y - at[4].y).abs() < 1e-6 && (at[0].y - at[1].y).abs() < 1e-6);
            assert!((at[0].y - at[3].y - 56.0).abs() < 1e-6, "{at:?}");
            for pair in [[0, 1], [1, 2], [2, 4]] {
                assert!((at[pair[1]].x - at[pair[0]].x - 140.0).abs() < 1e-6, "{at:?}");
            }
        }
    }

    #[test]
    fn a_track_goes_round_a_section_between_its_own() {
        let station = station_of(3, &both_ways(&[(1, 2), (2, 3), (1, 3)]), vec![]);
        let layout = laid_out(&station, &[(0.0, 0.0), (1.0, 0.0), (2.0, 0.0)]);
        let long = tracks(&station).iter().position(|track| track.ends == [0, 2]).expect("a track");
        assert!(is_free(&layout, [0, 2], &layout.ways[long].curves));
        assert_eq!(layout.ways[long].curves.len(), 3);
        assert!(layout.sections.iter().all(|at| at.y > 32.0));
    }
}
