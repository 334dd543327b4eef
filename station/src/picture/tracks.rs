//! Tracks and sections, and what symbols have to keep clear of.

use std::collections::BTreeSet;
use std::fmt::Write;

use super::markup::{Data, escaped, short, text_width};
use super::paths::{Course, Paths};
use super::placing::Area;
use super::style::LABEL;
use judge::State;

use super::{PATH_A, PATH_B, Sheet, TRAIN_FOOT, TRAIN_HEIGHT, arrow, arrow_corners, rows_of_trains, standing, text};
use crate::layout::Stub;
use crate::layout::curve::{Curve, point};

/// How far outside of the sections and tracks labels may stand.
const ROUND: f64 = 18.0;
/// So near to the middle of a track nothing should stand.
const BESIDE_LINE: f64 = 4.0;
/// How long the gap is between the points and a leg that is not set.
const GAP: f64 = 26.0;
/// The size of the arrow of a P line.
const ARROW: f64 = 13.0;
/// How far from its place along the track, as a share of that, the arrow may stand.
const ALONG: [f64; 15] = [0.0, 0.06, -0.06, 0.12, -0.12, 0.18, -0.18, 0.24, -0.24, 0.3, -0.3, 0.4, -0.4, 0.5, -0.5];
/// How much shorter than the track is its casing, which keeps tracks apart that cross.
const CASING: f64 = 12.0;

impl Sheet<'_> {
    /// Notes the tracks that a path runs along.
    pub(super) fn mark_used(&mut self) {
        for (_, step) in self.picture.all_paths().flat_map(|paths| &paths.courses).flat_map(Course::steps) {
            if let [Some(from), Some(to)] = step
                && let Some(track) = self.track_between(from, to)
            {
                self.used[track] = true;
            }
        }
    }

    /// What symbols and labels are to keep clear of: sections with their trains, and the tracks.
    pub(super) fn take_room(&mut self) {
        let (wide, high) = (self.layout.width + 2.0 * ROUND, self.layout.height + 2.0 * ROUND);
        self.taken.inside = Some(Area::new(-ROUND, -ROUND, wide, high));
        let standing = standing(self.station);
        for (section, trains) in standing.iter().enumerate() {
            let at = self.left_end(section);
            let above = if trains.is_empty() { 22.0 } else { TRAIN_FOOT + rows_of_trains(trains) as f64 * (TRAIN_HEIGHT + 2.0) };
            // Trains reach to the right end, and a number of three digits reaches out beside them.
            let (left, right) = match trains.is_empty() {
                true => (2.0, -2.0),
                false => (if section < 99 { 2.0 } else { -3.0 }, 0.0),
            };
            self.taken.take(Area::new(at.x + left, at.y - above, self.length(section) + right - left, above + 4.0));
        }
        for section in self.picture.all_paths().flat_map(Paths::sections).collect::<BTreeSet<_>>() {
            let at = self.left_end(section);
            self.taken.take(Area::new(at.x, at.y, self.length(section), PATH_B + 4.0));
        }
        for p in self.rails.iter().flat_map(|rail| [-BESIDE_LINE, BESIDE_LINE].map(|by| rail.beside(by))).flatten().flatten() {
            self.taken.pass(p);
        }
        for (rail, _) in self.rails.iter().zip(&self.used).filter(|(_, used)| **used) {
            for p in [PATH_A, PATH_B].into_iter().flat_map(|by| rail.beside(by)).flatten() {
                self.taken.pass(p);
            }
        }
        for way in &self.layout.ways {
            for stub in &way.stubs {
                let wide = text_width(&stub_words(stub), LABEL) + 4.0;
                let x = if stub.leaving { stub.at.x } else { stub.at.x - wide };
                self.taken.take(Area::new(x, stub.at.y - 7.0, wide, 14.0));
            }
        }
    }

    /// All tracks, those that a turnout is not set to first.
    pub(super) fn all_tracks(&mut self) {
        let states = |track: usize| self.points[track].map_or(vec![State::Open], |points| self.states(points.element));
        let order = |&(track, state): &(usize, State)| match self.points[track] {
            Some(points) if state != points.leg.state() => 0,
            Some(_) => 2,
            None => 1,
        };
        let mut numbers: Vec<(usize, State)> =
            (0..self.tracks.len()).flat_map(|track| states(track).into_iter().map(move |state| (track, state))).collect();
        numbers.sort_by_key(order);
        for (number, state) in numbers {
            self.track(number, state);
        }
    }

    /// A track, in a state of the turnout that it is a leg of.
    fn track(&mut self, number: usize, state: State) {
        let track = self.tracks[number].clone();
        let way = self.layout.ways[number].clone();
        let mut curves = way.curves.clone();
        let mut class = "track";
        let mut when = String::new();
        if let Some(points) = self.points[number] {
            when = self.when(points.element, state);
            if state == points.leg.state() {
                class = "track set";
            } else {
                class = "track unset";
                trim(&mut curves, self.is_left(number, track.ends[points.stem]), GAP);
            }
        }
        let [one, two] = track.ends.map(|end| end + 1);
        let mut words = Vec::new();
        for (over, (from, to)) in track.over.iter().zip([(one, two), (two, one)]) {
            if !over.is_empty() {
                words.push(self.station.step_under(section(from), section(to), over));
            }
        }
        let data = Data::of(&curves);
        let casing = if self.coupled[number] { "casing coupled" } else { "casing" };
        let mut inner = curves;
        trim(&mut inner, true, CASING);
        trim(&mut inner, false, CASING);
        let inner = Data::of(&inner);
        for (over, forward) in track.over.iter().zip([true, false]) {
            if let Some(plain) = over.plain {
                let mark = self.plain(number, forward != way.reversed, plain);
                self.arrows += &mark;
            }
        }
        let mut marks = String::new();
        for stub in &way.stubs {
            let (aside, anchor) = if stub.leaving { (3.0, "start") } else { (-3.0, "end") };
            marks += &text("on label", stub.at + point(aside, 4.0), anchor, &stub_words(stub));
        }
        let _ = writeln!(
            self.lines,
            "<g{when}><title>{}</title><path class=\"{casing}\" d=\"{inner}\"/><path class=\"{class}\" d=\"{data}\"/>{marks}</g>",
            escaped(&words.join("; "))
        );
    }

    /// The arrow of a P line.
    fn plain(&mut self, track: usize, from_left: bool, number: usize) -> String {
        let rail = &self.rails[track];
        let whole = rail.length(from_left);
        // Nearer to where it leads, with one the other way; nearer to where it starts, with a signal at the other end.
        let over = &self.tracks[track].over;
        let share = if over.iter().any(|over| over.signal.is_some()) {
            0.3
        } else if over.iter().all(|over| over.plain.is_some()) {
            0.72
        } else {
            0.52
        };
        let way = if from_left { 1.0 } else { -1.0 };
        // Elsewhere along the track where a section or another arrow is in the way there.
        let candidate = |by: &f64| {
            let sample = rail.at(from_left, whole * (share + by).clamp(0.1, 0.9));
            (sample, Area::of(&arrow_corners(sample.at, sample.along * way, ARROW)))
        };
        let Some(sample) = self.taken.least(ALONG.iter().map(candidate)) else { return String::new() };
        let (from, to) = self.station.filed.plain[number - 1];
        format!(
            "<g class=\"plain\"><title>P line from {from} to {to} (line {})</title>{}</g>\n",
            self.station.plain_line(number),
            arrow("arrow", sample.at, sample.along * way, ARROW)
        )
    }

    pub(super) fn all_sections(&mut self) {
        let standing = standing(self.station);
        for (number, trains) in standing.iter().enumerate() {
            let (from, to) = (self.left_end(number), self.right_end(number));
            let label = if trains.is_empty() { point((from.x + to.x) / 2.0, from.y - 9.0) } else { point(from.x + 13.0, from.y - 9.0) };
            let _ = writeln!(
                self.lines,
                "<g class=\"section\"><title>section {}</title><path class=\"bar\" d=\"M{} {}H{}\"/><path class=\"joint\" d=\"M{} {}v14M{} {}v14\"/>{}</g>",
                number + 1,
                short(from.x),
                short(from.y),
                short(to.x),
                short(from.x),
                short(from.y - 7.0),
                short(to.x),
                short(to.y - 7.0),
                text("number label", label, "start", &(number + 1).to_string()),
            );
        }
    }
}

/// Where a track that breaks off goes on.
fn stub_words(stub: &Stub) -> String {
    let way = if stub.leaving { "to" } else { "from" };
    format!("{way} {}", stub.section + 1)
}

/// Takes some length off one end.
fn trim(curves: &mut [Curve], at_left: bool, length: f64) {
    let end = if at_left { curves.first_mut() } else { curves.last_mut() };
    if let Some(curve) = end {
        let share = (length / curve.length().max(1.0)).min(0.6);
        *curve = if at_left { curve.part(share, 1.0) } else { curve.part(0.0, 1.0 - share) };
    }
}

/// A section number counted from 1.
fn section(number: usize) -> judge::Section {
    judge::Section(u16::try_from(number).unwrap_or(u16::MAX))
}
