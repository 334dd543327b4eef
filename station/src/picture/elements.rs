//! Turnouts and signals.

use std::fmt::Write;

use judge::{ElementLine, State};

use super::keeping::{LOCK, lock};
use super::markup::{short, text_width};
use super::placing::Area;
use super::style::LABEL;
use super::{Sheet, arrow, text};
use crate::layout::Side;
use crate::layout::curve::{Point, point};
use crate::layout::graph::place;
use crate::model::{Leg, word};

/// How far a signal stands beside the track, and beside a track with paths.
const BESIDE: f64 = 14.0;
const BESIDE_PATHS: f64 = 26.0;
/// Distances from the section at which a symbol of a track may stand; those behind the first `NEAR` only where no other place is free.
const DISTANCES: [f64; 18] =
    [12.0, 15.0, 18.0, 22.0, 26.0, 30.0, 36.0, 44.0, 56.0, 72.0, 92.0, 120.0, 160.0, 210.0, 270.0, 340.0, 430.0, 540.0];
const NEAR: usize = 13;
/// How much farther from the track it stands where no place is free: by so many steps at most, which only a tangle needs.
const STEP: f64 = 16.0;
const MOST_STEPS: u32 = 120;
/// How much farther it stands beside a track that slopes towards it, with its label beyond the lamp.
const HIGHER: f64 = 9.0;
/// The radius of a lamp, and of a lamp with a ring, with some room.
const LAMP: f64 = 8.0;
const RING: f64 = 11.0;
/// Distances from the points at which the number of a leg may stand.
const LEG_NUMBER: [f64; 7] = [30.0, 38.0, 48.0, 60.0, 76.0, 100.0, 130.0];
/// How many rows of text above and below the points of a turnout its label may stand, and how high a row is.
const FAR: u32 = 40;
const ROW: f64 = 18.0;
/// How much farther from the points of a turnout, where its legs have parted.
const BEHIND_POINTS: f64 = 26.0;

impl Sheet<'_> {
    pub(super) fn turnouts(&mut self) {
        let station = self.station;
        for (number, element, _) in station.elements() {
            let ElementLine::Turnout { stem, straight, diverted, .. } = *element else { continue };
            let legs: Vec<(Leg, usize, bool)> = [(Leg::Straight, straight), (Leg::Diverted, diverted)]
                .into_iter()
                .filter_map(|(leg, section)| {
                    let track = self.track_between(place(stem), place(section))?;
                    Some((leg, track, self.is_left(track, place(stem))))
                })
                .collect();
            let states = self.states(number);
            let mut marks = String::new();
            for &(leg, track, from_left) in &legs {
                let at = self.rails[track].at(from_left, 0.0).at;
                let _ = write!(marks, "<circle class=\"points\" cx=\"{}\" cy=\"{}\" r=\"4.5\"/>", short(at.x), short(at.y));
                if states == [State::Open] {
                    marks += &self.leg_number(leg, track, from_left);
                }
            }
            let Some(&(_, track, from_left)) = legs.iter().find(|(leg, _, _)| leg.state() == states[0]).or(legs.first()) else { continue };
            let label = |state: State| format!("D{number} {}", word(element, state));
            let wide = states.iter().map(|&state| text_width(&label(state), LABEL)).fold(0.0, f64::max);
            let keeps = self.keeps(number);
            let wide = wide + if keeps { LOCK } else { 0.0 };
            let start = self.turnout_label(track, from_left, wide);
            for state in states {
                let ring = station.is_open(number) && state != State::Open;
                let label = start.map(|start| label_mark(start, &label(state), wide, ring, keeps)).unwrap_or_default();
                let group = format!(
                    "<g class=\"turnout\"{}><title>{}: stem {stem}, straight leg {straight}, diverted leg {diverted} (line {})</title>{marks}{label}</g>",
                    self.when(number, state),
                    station.element_in(number, state),
                    station.element_line(number)
                );
                let _ = writeln!(self.above, "{group}");
            }
        }
    }

    /// 1 at the straight leg and 2 at the diverted one, of a turnout that is set to neither.
    fn leg_number(&mut self, leg: Leg, track: usize, from_left: bool) -> String {
        let rail = &self.rails[track];
        let whole = rail.length(from_left);
        let candidate = |(beside, distance): (f64, f64)| {
            let sample = rail.at(from_left, f64::min(distance, whole * 0.7));
            let at = sample.at + sample.along.turned() * beside;
            (at, [Area::around(at, 6.0)])
        };
        // Farther from the leg only where there is no free place.
        let beside = [10.0, 15.0, 20.0, 26.0, 32.0];
        let distances = |beside: f64| LEG_NUMBER.into_iter().flat_map(move |distance| [(-beside, distance), (beside, distance)]);
        let mut candidates = Vec::new();
        for beside in beside {
            candidates = distances(beside).map(candidate).collect::<Vec<_>>();
            if candidates.iter().any(|(_, [area])| self.taken.is_free(area)) {
                break;
            }
        }
        let number = leg.state().to_string();
        self.taken.best(candidates).map(|at| text("ask label", at + point(0.0, 4.0), "start", &number)).unwrap_or_default()
    }

    /// Whether an element is marked as one that keeps the station safe.
    fn keeps(&self, number: usize) -> bool {
        self.picture.keeping.contains(&number)
    }

    /// Where the label of a turnout starts, so wide as it is.
    fn turnout_label(&mut self, track: usize, from_left: bool, wide: f64) -> Option<Point> {
        let at = self.rails[track].at(from_left, 0.0).at;
        let outwards = match self.layout.ways[track].turn {
            Some(side) => side == Side::Right,
            None => from_left,
        };
        let near = [
            (8.0, -10.0),
            (12.0, -10.0),
            (8.0, 20.0),
            (16.0, -10.0),
            (16.0, 20.0),
            (8.0, 28.0),
            (20.0, -18.0),
            (20.0, 28.0),
            (-wide - 10.0, 22.0),
            (-wide / 2.0, 22.0),
            (30.0, -30.0),
            (30.0, 40.0),
            (-wide - 10.0, 36.0),
            (44.0, -44.0),
            (44.0, 54.0),
        ];
        let candidate = |(out, down): (f64, f64)| {
            let x = if outwards { at.x + out } else { at.x - out - wide };
            let start = point(x, at.y + down);
            (start, [Area::new(start.x - 4.0, start.y - 13.0, wide + 8.0, ROW)])
        };
        if let Some(found) = self.taken.best_free(near.into_iter().map(candidate)) {
            return Some(found);
        }
        // Where much stands about the points, above or below it.
        for row in 1..=FAR {
            let more = ROW * f64::from(row);
            let beside = [8.0, -wide / 2.0, -wide - 10.0].into_iter().flat_map(|out| [(out, -10.0 - more), (out, 20.0 + more)]);
            if let Some(found) = self.taken.best_free(beside.map(candidate)) {
                return Some(found);
            }
        }
        self.taken.best(near.into_iter().map(candidate))
    }

    pub(super) fn signals(&mut self) {
        let station = self.station;
        for (number, element, _) in station.elements() {
            let ElementLine::Signal { from, to, .. } = *element else { continue };
            let Some(track) = self.track_between(place(from), place(to)) else { continue };
            let from_left = self.is_left(track, place(from));
            let states = self.states(number);
            let Some(post) = self.post(number, track, from_left, states == [State::Open]) else { continue };
            for state in states {
                let group = format!(
                    "<g class=\"signal\"{}><title>{}, from {from} to {to} (line {})</title>{}</g>",
                    self.when(number, state),
                    station.element_in(number, state),
                    station.element_line(number),
                    self.signal(number, post, state)
                );
                let _ = writeln!(self.above, "{group}");
            }
        }
    }

    /// The place of a signal, where there is one.
    fn post(&mut self, number: usize, track: usize, from_left: bool, as_open: bool) -> Option<Post> {
        let label = format!("L{number}");
        let radius = if self.station.is_open(number) && !as_open { RING } else { LAMP };
        // Farther from the track only where there is no free place on either side.
        for step in 0..=MOST_STEPS {
            let posts = self.posts(track, from_left, radius, STEP * f64::from(step), &label, self.keeps(number));
            if let Some(found) = self.taken.best_free(posts) {
                return Some(found);
            }
        }
        self.taken.best(self.posts(track, from_left, radius, 0.0, &label, self.keeps(number)))
    }

    /// A post beside the track, an arm in the direction of the move, and a lamp with a face for its state. Post and arm are upright and level on sloping track
    /// too: the move is to the left or to the right, whatever the slope.
    fn signal(&self, number: usize, post: Post, state: State) -> String {
        let label = format!("L{number}");
        let Post { foot, top, lamp, travel, start } = post;
        let mut mark = format!(
            "<path class=\"post\" d=\"M{} {}L{} {}L{} {}\"/>",
            short(foot.x),
            short(foot.y),
            short(top.x),
            short(top.y),
            short(lamp.x),
            short(lamp.y)
        );
        mark += &lamp_mark(lamp, travel, state, self.station.is_open(number));
        mark += &text("label", start, "start", &label);
        mark + &lock_behind(start, &label, self.keeps(number))
    }

    /// The places for a signal so much farther from its track, with what each would cover: on the left of the way, where its driver looks for it, with the label
    /// behind the lamp or beyond it; then on the right.
    fn posts(&self, track: usize, from_left: bool, radius: f64, farther: f64, label: &str, keeps: bool) -> Vec<(Post, [Area; 2])> {
        let rail = &self.rails[track];
        let whole = rail.length(from_left);
        let nearest = if self.is_stem(track, from_left) { BEHIND_POINTS } else { 0.0 };
        let wide = text_width(label, LABEL) + if keeps { LOCK } else { 0.0 };
        let mut posts = Vec::new();
        for (left_hand, beyond) in [(true, false), (true, true), (false, false), (false, true)] {
            let near_enough = |distance: &f64| *distance <= (whole * 0.8).max(DISTANCES[0]);
            let all = if farther > 0.0 { DISTANCES.len() } else { NEAR };
            for distance in DISTANCES[..all].iter().map(|distance| distance + nearest).take_while(near_enough) {
                let sample = rail.at(from_left, distance);
                let travel = point(if (sample.along.x >= 0.0) == from_left { 1.0 } else { -1.0 }, 0.0);
                let side = travel.turned() * if left_hand { -1.0 } else { 1.0 };
                let beside = if self.used[track] && side.y > 0.0 { BESIDE_PATHS } else { BESIDE };
                let beside = beside + farther + if beyond { HIGHER } else { 0.0 };
                let top = sample.at + side * beside;
                let lamp = top + travel * 11.0;
                let start = match (beyond, travel.x >= 0.0) {
                    (false, true) => lamp + point(radius + 2.0, 4.2),
                    (false, false) => lamp + point(-radius - 2.0 - wide, 4.2),
                    (true, _) => lamp + point(-wide / 2.0, if side.y < 0.0 { -radius - 3.0 } else { radius + 12.0 }),
                };
                let areas = [Area::around(lamp, radius), Area::new(start.x, start.y - 11.0, wide, 14.0)];
                posts.push((Post { foot: sample.at, top, lamp, travel, start }, areas));
            }
        }
        posts
    }
}

/// The label of a turnout; in a dashed ring where the file leaves it open and a state is shown.
fn label_mark(start: Point, words: &str, wide: f64, ring: bool, keeps: bool) -> String {
    let ring = match ring {
        true => format!(
            "<rect class=\"ring\" x=\"{}\" y=\"{}\" width=\"{}\" height=\"18\" rx=\"6\"/>",
            short(start.x - 4.0),
            short(start.y - 13.0),
            short(wide + 8.0)
        ),
        false => String::new(),
    };
    format!("{}{ring}{}", text("label", start, "start", words), lock_behind(start, words, keeps))
}

/// The mark of an element that keeps the station safe, behind its label.
fn lock_behind(start: Point, label: &str, keeps: bool) -> String {
    if keeps { lock(start + point(text_width(label, LABEL) + 3.0, 0.0)) } else { String::new() }
}

/// Where a signal stands: its foot on the track, the end of its post, its lamp, the direction of its moves, and where its label starts.
#[derive(Clone, Copy, Debug)]
struct Post {
    foot: Point,
    top: Point,
    lamp: Point,
    travel: Point,
    start: Point,
}

/// A lamp: an arrow head for proceed, a bar across for stop, a question mark for open; a dashed ring where the file leaves the element open and a
/// state is shown.
pub(super) fn lamp_mark(lamp: Point, travel: Point, state: State, open: bool) -> String {
    let class = match state {
        State::Open => "open",
        State::One => "proceed",
        State::Two => "stop",
    };
    let mut mark = format!("<circle class=\"{class}\" cx=\"{}\" cy=\"{}\" r=\"6.5\"/>", short(lamp.x), short(lamp.y));
    mark += &match state {
        State::Open => text("ask", lamp + point(0.0, 4.0), "start", "?"),
        State::One => arrow("face", lamp, travel, 6.0),
        State::Two => {
            let (from, to) = (lamp + travel.turned() * 4.2, lamp - travel.turned() * 4.2);
            format!("<path class=\"face halt\" d=\"M{} {}L{} {}\"/>", short(from.x), short(from.y), short(to.x), short(to.y))
        }
    };
    if open && state != State::Open {
        let _ = write!(mark, "<circle class=\"ring\" cx=\"{}\" cy=\"{}\" r=\"9.6\"/>", short(lamp.x), short(lamp.y));
    }
    mark
}
