//! Where everything stands in the picture: sections in layers from left to right, tracks as smooth curves between them. A part with many layers
//! is cut into bands below one another, as a text is cut into lines; parts that no track joins stand side by side.

mod bands;
pub mod curve;
mod ends;
pub mod graph;
mod height;
mod layers;
mod order;
mod placed;
mod tight;

use bands::{Columns, columns, cuts};
use curve::{Curve, Point, point};
use graph::Graph;
pub use height::Room;
use height::{put_heights, steepness};
use order::Levels;
pub use placed::placed;

/// Between tracks that break off beside one another.
const FAN: f64 = 16.0;
/// Between bands, and between parts.
const BETWEEN: f64 = 28.0;
/// A part with no more sections than this is a small one.
const FEW: usize = 2;
/// Width to height of a picture, as far as there is a choice.
const SHAPE: f64 = 2.0;

/// The way of a track from its left end to its right end.
#[derive(Clone, Debug, Default)]
pub struct Way {
    pub curves: Vec<Curve>,
    /// The left end is the second of the track's ends.
    pub reversed: bool,
    /// The track turns: it joins two right or two left ends, of sections above one another.
    pub turn: Option<Side>,
    pub stubs: Vec<Stub>,
}

/// One of the two ends of a section.
#[derive(Clone, Copy, Debug, PartialEq, Eq)]
pub enum Side {
    Left,
    Right,
}

/// The end of a band, where a track breaks off, and the section, counted from 0, that it goes on to.
#[derive(Clone, Copy, Debug)]
pub struct Stub {
    pub at: Point,
    pub section: usize,
    /// At the right end of a band; otherwise at the left end of the next.
    pub leaving: bool,
}

/// A finished layout.
#[derive(Clone, Debug, Default)]
pub struct Layout {
    pub width: f64,
    pub height: f64,
    /// The left end of each section, and how long it is.
    pub sections: Vec<Point>,
    pub lengths: Vec<f64>,
    /// By track.
    pub ways: Vec<Way>,
}

/// Lays out sections that need some room, with tracks that need some length.
pub fn lay_out(graph: &Graph, rooms: &[Room], needs: &[f64]) -> Layout {
    let mut layer = vec![0; graph.nodes];
    let mut layout = Layout {
        sections: vec![Point::default(); graph.nodes],
        lengths: vec![0.0; graph.nodes],
        ways: vec![Way::default(); graph.tracks.len()],
        ..Layout::default()
    };
    // Those with a few sections come last, in rows of their own.
    let mut components = graph.components();
    components.sort_by_key(|nodes| nodes.len() <= FEW);
    let parts: Vec<Part> = components
        .iter()
        .map(|nodes| {
            layers::put_layers(graph, nodes, &mut layer);
            Part::new(graph, nodes, &layer, rooms, needs)
        })
        .collect();
    let area: f64 = parts.iter().map(|part| (part.width + BETWEEN) * (part.height + BETWEEN)).sum();
    let widest = parts.iter().map(|part| part.width).fold(0.0, f64::max);
    let room = widest.max((area * SHAPE).sqrt());
    let (mut x, mut y, mut row) = (0.0, 0.0, 0.0_f64);
    let mut few = false;
    for part in parts {
        let now_few = part.sections.len() <= FEW;
        if x > 0.0 && (x + part.width > room || now_few != few) {
            x = 0.0;
            y += row + BETWEEN;
            row = 0.0;
        }
        few = now_few;
        let by = point(x, y);
        for (node, at, length) in part.sections {
            layout.sections[node] = at + by;
            layout.lengths[node] = length;
        }
        for (track, mut way) in part.ways {
            way.curves = way.curves.iter().map(|curve| curve.shifted(by)).collect();
            for stub in &mut way.stubs {
                stub.at = stub.at + by;
            }
            layout.ways[track] = way;
        }
        x += part.width + BETWEEN;
        row = row.max(part.height);
        layout.width = layout.width.max(x - BETWEEN);
        layout.height = layout.height.max(y + row);
    }
    layout
}

/// A connected part with its upper left corner at 0.
struct Part {
    width: f64,
    height: f64,
    /// The left end and the length of each.
    sections: Vec<(usize, Point, f64)>,
    ways: Vec<(usize, Way)>,
}

impl Part {
    fn new(graph: &Graph, nodes: &[usize], layer: &[i32], rooms: &[Room], needs: &[f64]) -> Part {
        let mut levels = Levels::new(graph, nodes, layer);
        let depth = levels.levels.len();
        let mut height = vec![0.0; levels.left.len()];
        levels.untangle(graph, nodes, &mut |levels| {
            put_heights(graph, levels, 0..depth, rooms, &mut height);
            steepness(levels, &height)
        });
        put_heights(graph, &levels, 0..depth, rooms, &mut height);
        let (top, bottom) = span(levels.levels.iter().flatten(), &height, rooms);
        let cuts = cuts(graph, &levels, &height, rooms, needs, bottom - top);
        levels.leave_out_what_passes(graph, &cuts);
        // Each band has heights of its own, and is as high as what it holds.
        let starts: Vec<usize> = [0].into_iter().chain(cuts.iter().copied()).chain([depth]).collect();
        let mut next = 0.0;
        for band in starts.windows(2) {
            if !cuts.is_empty() {
                put_heights(graph, &levels, band[0]..band[1], rooms, &mut height);
            }
            let inside = || levels.levels[band[0]..band[1]].iter().flatten();
            let (top, bottom) = span(inside(), &height, rooms);
            inside().for_each(|&node| height[node] += next - top);
            next += bottom - top + BETWEEN;
        }
        let placed = Placed::new(&levels, &height, columns(&levels, &height, rooms, needs, &cuts));
        Part {
            width: placed.columns.width,
            height: next - BETWEEN,
            sections: nodes.iter().map(|&node| (node, placed.place[node], placed.length(node))).collect(),
            ways: graph.tracks_of(nodes).into_iter().map(|track| (track, placed.way(graph, &levels, track))).collect(),
        }
    }
}

/// Where nodes and bends of a part are.
struct Placed {
    place: Vec<Point>,
    level: Vec<usize>,
    columns: Columns,
}

impl Placed {
    fn new(levels: &Levels, height: &[f64], columns: Columns) -> Placed {
        let mut placed = Placed { place: vec![Point::default(); height.len()], level: levels.level.clone(), columns };
        for (number, level) in levels.levels.iter().enumerate() {
            for &node in level {
                placed.place[node] = point(placed.columns.x[number], height[node]);
            }
        }
        placed
    }

    fn band(&self, node: usize) -> usize {
        self.columns.band[self.level[node]]
    }

    fn length(&self, node: usize) -> f64 {
        self.columns.lengths[self.level[node]]
    }

    fn right_end(&self, node: usize) -> Point {
        point(self.place[node].x + self.length(node), self.place[node].y)
    }

    fn way(&self, graph: &Graph, levels: &Levels, track: usize) -> Way {
        let ends = graph.tracks[track].0;
        let reversed = self.level[ends[0]] > self.level[ends[1]];
        let [left, right] = if reversed { [ends[1], ends[0]] } else { ends };
        let mut way = Way { reversed, ..Way::default() };
        if self.level[left] == self.level[right] {
            let (from, to, out) = match levels.turns[track] {
                Side::Right => (self.right_end(left), self.right_end(right), 1.0),
                Side::Left => (self.place[left], self.place[right], -1.0),
            };
            way.curves.push(Curve::around(from, to, out * bulge(to.y - from.y)));
            way.turn = Some(levels.turns[track]);
            return way;
        }
        // What would pass a whole band is not drawn in it.
        let bends = levels.bends[track].iter().copied().filter(|&bend| [left, right].iter().any(|&end| self.band(end) == self.band(bend)));
        let stops: Vec<usize> = [left].into_iter().chain(bends).chain([right]).collect();
        for joint in stops.windows(2) {
            let (from, to) = (self.right_end(joint[0]), self.place[joint[1]]);
            if levels.is_bend(joint[0]) {
                way.curves.push(Curve::line(self.place[joint[0]], from));
            }
            if self.band(joint[0]) == self.band(joint[1]) {
                way.curves.push(Curve::level(from, to));
                continue;
            }
            let leaving = point(from.x + self.columns.stubs[self.band(joint[0])], from.y + fan(&levels.right[joint[0]], track));
            let coming = point(to.x - self.columns.stubs[self.band(joint[1]) - 1], to.y + fan(&levels.left[joint[1]], track));
            way.curves.extend([Curve::level(from, leaving), Curve::level(coming, to)]);
            way.stubs.push(Stub { at: leaving, section: right, leaving: true });
            way.stubs.push(Stub { at: coming, section: left, leaving: false });
        }
        way
    }
}

/// How far above or below the others at the same end a track breaks off.
fn fan(beside: &[(usize, usize)], track: usize) -> f64 {
    let number = beside.iter().position(|&(_, other)| other == track).unwrap_or(0);
    (number as f64 - (beside.len().max(1) - 1) as f64 / 2.0) * FAN
}

/// How far a track between sections above one another goes out.
fn bulge(height: f64) -> f64 {
    (30.0 + 0.16 * height.abs()).min(190.0)
}

/// The top and the bottom of some nodes.
fn span<'a>(nodes: impl Iterator<Item = &'a usize>, height: &[f64], rooms: &[Room]) -> (f64, f64) {
    let mut span = (f64::MAX, f64::MIN);
    for &node in nodes {
        let room = rooms.get(node).copied().unwrap_or_default();
        span = (span.0.min(height[node] - room.above), span.1.max(height[node] + room.below));
    }
    span
}

#[cfg(test)]
mod tests {
    use super::*;
    use crate::layout::graph::tracks;
    use crate::model::Station;
    use crate::model::examples::station_k;
    use judge::{Letter, Section, Situation};

    const BAR: f64 = 90.0;

    fn laid_out(station: &Station) -> Layout {
        let tracks = tracks(station);
        let graph = Graph::new(station, &tracks);
        lay_out(&graph, &vec![Room { above: 32.0, below: 24.0, length: BAR }; graph.nodes], &vec![100.0; graph.tracks.len()])
    }

    fn chain(sections: u16) -> Station {
        let plain = (1..sections).map(|section| (Section(section), Section(section + 1))).collect();
        Station::new(Situation { letter: Letter::S, sections, plain, elements: vec![], trains: vec![] })
    }

    #[test]
    fn sections_stand_apart() {
        for station in [station_k(), chain(1), chain(40), chain(512)] {
            let layout = laid_out(&station);
            for (place, one) in layout.sections.iter().enumerate() {
                assert!(one.x >= 0.0 && one.y >= 0.0 && one.x + BAR <= layout.width + 0.1 && one.y <= layout.height);
                for two in &layout.sections[place + 1..] {
                    assert!((one.x - two.x).abs() >= BAR || (one.y - two.y).abs() >= 56.0);
                }
            }
        }
    }

    #[test]
    fn tracks_lead_from_section_to_section() {
        let station = station_k();
        let layout = laid_out(&station);
        for (track, way) in tracks(&station).iter().zip(&layout.ways) {
            let [left, right] = if way.reversed { [track.ends[1], track.ends[0]] } else { track.ends };
            let first = way.curves.first().map(|curve| curve.at(0.0));
            let last = way.curves.last().map(|curve| curve.at(1.0));
            assert_eq!(first, Some(layout.sections[left] + point(BAR, 0.0)));
            assert_eq!(last, Some(layout.sections[right]));
        }
    }

    #[test]
    fn a_long_chain_is_cut_into_bands() {
        let layout = laid_out(&chain(512));
        let shape = layout.width / layout.height;
        assert!((0.7..3.0).contains(&shape), "{shape}");
        let stubs: usize = layout.ways.iter().map(|way| way.stubs.len()).sum();
        assert!(stubs >= 20 && stubs.is_multiple_of(2));
    }

    #[test]
    fn sections_without_tracks_fill_a_rectangle() {
        let station = Station::new(Situation { letter: Letter::S, sections: 512, plain: vec![], elements: vec![], trains: vec![] });
        let layout = laid_out(&station);
        let shape = layout.width / layout.height;
        assert!((1.0..2.5).contains(&shape), "{shape}");
    }
}
