//! Trains, their paths, and the section where they meet.

use std::collections::BTreeMap;
use std::fmt::Write;

use super::markup::{Data, bold_width, escaped, short};
use super::paths::{Course, End};
use super::placing::Area;
use super::style::LABEL;
use super::{END_OUT, PATH_A, PATH_B, Sheet, TRAIN_FOOT, TRAIN_HEIGHT, arrow, rows_of_trains, standing, text, trains_in_a_row};
use crate::layout::Side;
use crate::layout::curve::{Curve, Point, point};
use crate::layout::graph::place;

/// Where the trains of a section begin, behind a number of three digits, how wide a row of them is, which is so much as "train 512" takes, and how far
/// they are apart.
const BEHIND_NUMBER: f64 = 29.0;
const BODIES: f64 = 60.0;
const APART: f64 = 1.0;
/// The radius of a cross, with some room.
const CROSS: f64 = 10.0;
/// How far a path goes into a section where it turns round.
const TURN: f64 = 10.0;

impl Sheet<'_> {
    /// Long trains: a band along the tracks between their sections, or a dotted line where no track joins two of them.
    pub(super) fn couplings(&mut self) {
        let station = self.station;
        for (number, sections) in station.trains() {
            for pair in sections.windows(2) {
                let (one, two) = (place(pair[0]), place(pair[1]));
                match self.track_between(one, two) {
                    Some(track) => {
                        self.coupled[track] = true;
                        let _ = writeln!(self.ground, "<path class=\"coupling\" d=\"{}\"/>", Data::of(&self.layout.ways[track].curves));
                    }
                    None => {
                        let middle = |section: usize| self.middle(section) - point(0.0, TRAIN_FOOT + TRAIN_HEIGHT / 2.0);
                        let (from, to) = (middle(one), middle(two));
                        let lift = point(0.0, -20.0 - 0.08 * (to - from).length());
                        let curve = Curve([from, from + (to - from) * 0.25 + lift, from + (to - from) * 0.75 + lift, to]);
                        let _ = writeln!(
                            self.ground,
                            "<path class=\"link\" d=\"{}\"><title>train {number} stands over both</title></path>",
                            Data::of(&[curve])
                        );
                    }
                }
            }
            if sections.len() > 1 {
                for &section in sections {
                    let (from, to) = (self.left_end(place(section)), self.right_end(place(section)));
                    let _ = writeln!(self.ground, "<path class=\"coupling\" d=\"{}\"/>", Data::of(&[Curve::line(from, to)]));
                }
            }
        }
    }

    /// The marks of the sections where the paths end.
    pub(super) fn ends(&mut self) {
        for end in self.picture.paths.iter().flat_map(|paths| &paths.ends) {
            let mark = self.end(end);
            let _ = writeln!(self.ground, "{mark}");
        }
        for end in
            self.picture.all_paths().flat_map(|paths| &paths.ends).map(|end| (end.section, end)).collect::<BTreeMap<_, _>>().into_values()
        {
            let (at, above) = (self.left_end(end.section), self.above_end(end.section));
            self.taken.take(Area::new(at.x - END_OUT, at.y - above, self.length(end.section) + 2.0 * END_OUT, above + 24.0));
            let wide = bold_width(end.words, LABEL);
            self.taken.take(Area::new(self.middle(end.section).x - wide / 2.0, at.y + 26.0, wide, 16.0));
        }
    }

    /// How far above a section the mark of an end of paths goes.
    fn above_end(&self, section: usize) -> f64 {
        let standing = standing(self.station);
        let trains = standing.get(section).map_or(&[][..], Vec::as_slice);
        26.0_f64.max(TRAIN_FOOT + rows_of_trains(trains) as f64 * (TRAIN_HEIGHT + 2.0) + 6.0)
    }

    /// The mark of a section where paths end, hatched where the trains meet.
    pub(super) fn end(&self, end: &End) -> String {
        let (at, above) = (self.left_end(end.section), self.above_end(end.section));
        let fill = if end.meeting { format!("url(#{}hatch)", escaped(&self.picture.prefix)) } else { String::from("none") };
        format!(
            "<g class=\"meets-here\"><title>{}</title><rect class=\"meeting\" fill=\"{fill}\" x=\"{}\" y=\"{}\" width=\"{}\" height=\"{}\" rx=\"9\"/>{}</g>",
            end.title,
            short(at.x - END_OUT),
            short(at.y - above),
            short(self.length(end.section) + 2.0 * END_OUT),
            short(above + 24.0),
            text("meets label", self.middle(end.section) + point(0.0, 38.0), "middle", end.words),
        )
    }

    /// Both paths, one beside the other. What is not permitted has a cross.
    pub(super) fn paths(&mut self) {
        let Some(paths) = self.picture.paths else { return };
        for course in &paths.courses {
            let line = self.line(course);
            let title = format!("path {} of train {}: {}", course.name(paths.drawn), course.train, course.words);
            let class = format!("path-{}", course.letter);
            let _ = write!(self.lines, "<g class=\"path\"><title>{title}</title><path class=\"{class}\" d=\"{}\"/>", line.right.text);
            if !line.wrong.text.is_empty() {
                let _ = write!(self.lines, "<path class=\"{class} astray\" d=\"{}\"/>", line.wrong.text);
            }
            let _ = writeln!(self.lines, "{}</g>", line.tips);
            for curve in &line.astray {
                (0..=20).for_each(|step| self.taken.pass(curve.at(f64::from(step) / 20.0)));
            }
            for (at, why) in line.crosses {
                self.taken.take(Area::around(at, CROSS));
                self.crosses += &cross(at, &why);
            }
        }
    }

    /// The line of a path, with the tips of its arrows.
    pub(super) fn line(&self, course: &Course) -> Line {
        let down = point(0.0, below_track(course));
        let mut line = Line::default();
        if let Some(&Some(first)) = course.stops.first() {
            line.right.to(self.middle(first) + down);
        }
        let mut came: Option<Point> = None;
        for (place, step) in course.steps() {
            let fault = course.fault(place);
            match step {
                [Some(from), Some(to)] => {
                    came = match self.track_between(from, to) {
                        Some(track) => Some(self.along(&mut line, course, [from, to], track, came, fault)),
                        None => {
                            self.astray(&mut line, course, [from, to], fault);
                            None
                        }
                    };
                }
                [from, to] => {
                    self.outside(&mut line, [from, to], down, fault);
                    if to.is_some() {
                        came = None;
                    }
                }
            }
        }
        if let [_, .., Some(last)] = course.stops[..] {
            line.right.to(self.middle(last) + down);
        }
        line
    }

    /// A step from or to what is no section of the station.
    fn outside(&self, line: &mut Line, step: [Option<usize>; 2], down: Point, fault: Option<&str>) {
        let [from, to] = step.map(|section| section.map(|section| self.middle(section) + down));
        if let Some(from) = from {
            line.cross(from + point(24.0, 0.0), fault);
            line.right.to(from);
        } else if let Some(to) = to {
            line.cross(to - point(24.0, 0.0), fault);
            line.right.gap();
            line.right.to(to);
        }
    }

    /// A step between two sections that no track joins.
    fn astray(&self, line: &mut Line, course: &Course, step: [usize; 2], fault: Option<&str>) {
        let [from, to] = step.map(|section| self.middle(section) + point(0.0, below_track(course)));
        let curve = below(from, to);
        line.right.to(from);
        line.wrong.curve(&curve);
        // Those of both paths apart, where they go the same way.
        line.cross(curve.at(if course.letter == 'a' { 0.4 } else { 0.6 }), fault);
        line.astray.push(curve);
        line.right.gap();
        line.right.to(to);
    }

    /// A step along a track, from where the path came into the section; gives where it comes into the next.
    fn along(&self, line: &mut Line, course: &Course, step: [usize; 2], track: usize, came: Option<Point>, fault: Option<&str>) -> Point {
        let down = point(0.0, below_track(course));
        let [from, to] = step;
        let from_left = self.is_left(track, from);
        let (leaves, comes) = (self.end_of(track, from, from_left), self.end_of(track, to, !from_left));
        if came == Some(leaves) {
            // It turns round: a little way into the section and back.
            let inwards = if leaves == self.right_end(from) { -TURN } else { TURN };
            line.right.to(leaves + down + point(inwards, 0.0));
        }
        line.right.to(leaves + down);
        let mut pieces = self.rails[track].beside(below_track(course));
        if !from_left {
            pieces.reverse();
            pieces.iter_mut().for_each(|piece| piece.reverse());
        }
        let tip = format!("tip-{}", course.letter);
        let way = if fault.is_some() {
            line.wrong.gap();
            line.wrong.to(leaves + down);
            &mut line.wrong
        } else {
            &mut line.right
        };
        let mut crosses = vec![];
        for (place, piece) in pieces.iter().enumerate() {
            if place > 0 {
                way.gap();
            }
            piece.iter().for_each(|&p| way.to(p));
            if let [.., before, at] = piece.get(..piece.len() / 2 + 1).unwrap_or_default() {
                match fault {
                    Some(_) => crosses.push(*at),
                    None => line.tips += &arrow(&tip, *at, (*at - *before).unit(), 11.0),
                }
            }
        }
        way.to(comes + down);
        crosses.into_iter().for_each(|at| line.cross(at, fault));
        if fault.is_some() {
            line.right.gap();
            line.right.to(comes + down);
        }
        comes
    }

    /// Where a track ends at a section, which it is left of or not.
    fn end_of(&self, track: usize, section: usize, at_left: bool) -> Point {
        match self.layout.ways[track].turn.unwrap_or(if at_left { Side::Right } else { Side::Left }) {
            Side::Right => self.right_end(section),
            Side::Left => self.left_end(section),
        }
    }

    /// The letters at the start of the paths; with a cross where the train does not stand there.
    pub(super) fn badges(&mut self) {
        let Some(paths) = self.picture.paths else { return };
        let starts = [&paths.courses[0], &paths.courses[1]].map(|course| course.stops.first().copied().flatten());
        let same = starts[0] == starts[1];
        for (course, start) in paths.courses.iter().zip(starts) {
            let Some(start) = start else { continue };
            let shift = if same { badge_shift(course.letter) } else { 0.0 };
            let at = self.middle(start) + point(shift, 12.0);
            let _ = writeln!(self.above, "{}", badge(course.letter, at));
            if let Some(fault) = course.fault(0) {
                let aside = if course.letter == 'a' && same { -18.0 } else { 18.0 };
                self.crosses += &cross(at + point(aside, 0.0), fault);
            }
        }
    }

    /// A body on each section of a train.
    pub(super) fn trains(&mut self) {
        let standing = standing(self.station);
        let station = self.station;
        for (number, sections) in station.trains() {
            let mut bodies = String::new();
            for &section in sections {
                let here = standing.get(place(section)).map_or(&[][..], Vec::as_slice);
                bodies += &body(self.left_end(place(section)), number, here);
            }
            let _ = writeln!(
                self.above,
                "<g class=\"train\"><title>{} (line {})</title>{bodies}</g>",
                station.train_words(number),
                station.train_line(number)
            );
        }
    }
}

/// How far aside the letter of a path stands where both start in one section.
pub(super) fn badge_shift(letter: char) -> f64 {
    if letter == 'a' { -14.0 } else { 14.0 }
}

/// The letter at the start of a path.
pub(super) fn badge(letter: char, at: Point) -> String {
    let big = letter.to_ascii_uppercase();
    format!(
        "<g><title>path {big} starts here</title><circle class=\"badge-{letter}\" cx=\"{}\" cy=\"{}\" r=\"8.5\"/>{}</g>",
        short(at.x),
        short(at.y),
        text(&format!("on-{letter}"), at + point(0.0, 4.2), "start", &big.to_string())
    )
}

/// A path as it is drawn.
#[derive(Default)]
pub(super) struct Line {
    pub right: Data,
    /// Along what is not permitted.
    pub wrong: Data,
    pub tips: String,
    /// Where crosses stand, and why.
    pub crosses: Vec<(Point, String)>,
    /// The curves where no track is.
    pub astray: Vec<Curve>,
}

impl Line {
    fn cross(&mut self, at: Point, why: Option<&str>) {
        self.crosses.push((at, String::from(why.unwrap_or_default())));
    }
}

/// How far beside its track a path is drawn.
fn below_track(course: &Course) -> f64 {
    if course.letter == 'a' { PATH_A } else { PATH_B }
}

/// A curve below two sections that no track joins.
fn below(from: Point, to: Point) -> Curve {
    let sag = point(0.0, (20.0 + 0.08 * (to - from).length()).min(48.0));
    Curve([from, from + (to - from) * 0.25 + sag, from + (to - from) * 0.75 + sag, to])
}

/// A cross in a ring, at what is not permitted.
pub(super) fn cross(at: Point, why: &str) -> String {
    let (x, y) = (short(at.x), short(at.y));
    format!(
        "<g class=\"cross\"><title>{}</title><circle cx=\"{x}\" cy=\"{y}\" r=\"8\"/><path d=\"M{x} {y}m-4 -4l8 8m0 -8l-8 8\"/></g>\n",
        escaped(why)
    )
}

/// The body of a train on a section: one of those that stand there.
fn body(at: Point, number: usize, together: &[usize]) -> String {
    let order = together.iter().position(|&train| train == number).unwrap_or(0);
    let in_a_row = trains_in_a_row(together);
    let (row, share) = (order / in_a_row, (BODIES + APART) / in_a_row as f64);
    let words = if in_a_row == 1 { format!("train {number}") } else { number.to_string() };
    let (x, wide) = (at.x + BEHIND_NUMBER + share * (order % in_a_row) as f64, share - APART);
    let top = at.y - TRAIN_FOOT - TRAIN_HEIGHT - row as f64 * (TRAIN_HEIGHT + 2.0);
    let mut body = format!(
        "<rect class=\"body\" x=\"{}\" y=\"{}\" width=\"{}\" height=\"{}\" rx=\"4\"/>",
        short(x),
        short(top),
        short(wide),
        short(TRAIN_HEIGHT)
    );
    if row == 0 {
        for wheel in [x + 5.0, x + wide - 5.0] {
            let _ = write!(body, "<circle class=\"wheel\" cx=\"{}\" cy=\"{}\" r=\"2.6\"/>", short(wheel), short(at.y - TRAIN_FOOT + 2.2));
        }
    }
    body + &text("name", point(x + wide / 2.0, top + 14.6), "start", &words)
}
