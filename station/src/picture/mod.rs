//! A picture of a station as SVG.

mod elements;
mod keeping;
mod legend;
pub mod markup;
pub mod paths;
mod placing;
mod rail;
pub mod style;
mod tracks;
mod trains;
mod walk;

use std::collections::BTreeSet;
use std::fmt::Write;

use judge::State;

use crate::layout::curve::{Point, point};
use crate::layout::graph::{Graph, Points, Track, place, tracks};
use crate::layout::{Layout, Room, lay_out, placed};
use crate::model::{Station, listed};
use keeping::LOCK;
use legend::Legend;
use markup::{BOLD, broken, escaped, short, text_width};
use paths::Paths;
use placing::Taken;
use rail::Rail;
use style::LABEL;

/// What a picture is made of.
pub struct Picture<'a> {
    /// The station with the states that are shown.
    pub station: &'a Station,
    /// Of two trains that meet, or as a candidate drew them.
    pub paths: Option<&'a Paths>,
    /// Of a walk through the settings: the paths of its frames. The open elements are then drawn in both states.
    pub walk: Option<&'a [Paths]>,
    /// The elements that are marked: each of them keeps the station safe.
    pub keeping: &'a [usize],
    pub title: String,
    /// One sentence under the title.
    pub subtitle: String,
    /// Put before names that must be unique in a page.
    pub prefix: String,
    /// The picture stands alone and brings its styles along.
    pub alone: bool,
    /// Where the sections stand to one another, one after the other, if that is given.
    pub positions: Option<&'a [Point]>,
}

/// Around the picture.
const MARGIN: f64 = 26.0;
/// So that title and legend have room.
const NARROWEST: f64 = 660.0;

/// Room above and below the line of a section: for its number, for tracks that pass; for a train, for paths, for the mark of the meeting section.
/// How long a section is, and one with its number and a train.
const LENGTH: f64 = 60.0;
const LENGTH_WITH_TRAIN: f64 = 90.0;
const ABOVE: f64 = 32.0;
const BELOW: f64 = 24.0;
const TRAIN_HEIGHT: f64 = 20.0;
const TRAIN_FOOT: f64 = 8.0;
const PATHS_BELOW: f64 = 12.0;
const MEETING_BELOW: f64 = 20.0;
/// How far the mark of the section where paths end reaches out on either side.
const END_OUT: f64 = 7.0;

/// The hatching of a section where trains meet.
const HATCH: &str = "<pattern id=\"hatch\" width=\"7\" height=\"7\" patternUnits=\"userSpaceOnUse\" patternTransform=\"rotate(45)\"><rect width=\"7\" height=\"7\" fill=\"#faf0fc\"/><rect width=\"2\" height=\"7\" fill=\"#dcb3e4\"/></pattern>";

/// How far below the line the paths run.
const PATH_A: f64 = 7.5;
const PATH_B: f64 = 13.5;

/// The picture while it is drawn: what lies lower is in an earlier text.
struct Sheet<'a> {
    picture: &'a Picture<'a>,
    station: &'a Station,
    tracks: Vec<Track>,
    points: Vec<Option<Points>>,
    layout: Layout,
    rails: Vec<Rail>,
    /// Whether a path runs along a track, and whether a long train stands over it.
    used: Vec<bool>,
    coupled: Vec<bool>,
    taken: Taken,
    ground: String,
    lines: String,
    arrows: String,
    above: String,
    /// On top of all.
    crosses: String,
}

impl Picture<'_> {
    pub fn draw(&self) -> String {
        self.sheet().finish()
    }

    /// All paths that have to have room.
    fn all_paths(&self) -> impl Iterator<Item = &Paths> {
        self.paths.into_iter().chain(self.walk.unwrap_or_default())
    }

    /// The sheet with all that stands on it.
    fn sheet(&self) -> Sheet<'_> {
        let tracks = tracks(self.station);
        let graph = Graph::new(self.station, &tracks);
        let points: Vec<Option<Points>> = tracks.iter().map(|track| track.points(self.station)).collect();
        let rooms = rooms(self.station, || self.all_paths());
        let marked: BTreeSet<usize> = self.all_paths().flat_map(|paths| &paths.ends).map(|end| end.section).collect();
        let beside = |track: &Track| if track.ends.iter().any(|end| marked.contains(end)) { END_OUT } else { 0.0 };
        let needs: Vec<f64> = tracks.iter().map(|track| need(track, self.keeping) + beside(track)).collect();
        let layout = match self.positions {
            Some(positions) => placed(&graph, &rooms, &needs, positions),
            None => lay_out(&graph, &rooms, &needs),
        };
        let rails: Vec<Rail> = layout.ways.iter().map(Rail::new).collect();
        let mut sheet = Sheet {
            picture: self,
            station: self.station,
            used: vec![false; tracks.len()],
            coupled: vec![false; tracks.len()],
            tracks,
            points,
            layout,
            rails,
            taken: Taken::default(),
            ground: String::new(),
            lines: String::new(),
            arrows: String::new(),
            above: String::new(),
            crosses: String::new(),
        };
        sheet.mark_used();
        sheet.take_room();
        sheet.couplings();
        sheet.ends();
        sheet.all_tracks();
        sheet.lines += &std::mem::take(&mut sheet.arrows);
        sheet.all_sections();
        sheet.paths();
        sheet.signals();
        sheet.turnouts();
        sheet.trains();
        sheet.badges();
        sheet.above += &std::mem::take(&mut sheet.crosses);
        sheet
    }
}

/// The length that a track needs for what stands along it. Signals of both ways are on either side and share it in part.
fn need(track: &Track, keeping: &[usize]) -> f64 {
    let signals = track.over.iter().filter(|over| over.signal.is_some()).count() as f64;
    let plain = track.over.iter().filter(|over| over.plain.is_some()).count() as f64;
    match track.over[0].turnout {
        // The label starts behind the points, and ends before the leg's section.
        Some((element, _)) => {
            let lock = if keeping.contains(&element) { LOCK } else { 0.0 };
            text_width(&format!("D{element} diverted"), LABEL) + lock + 10.0 + 32.0 * signals
        }
        None => 26.0 + 22.0 * signals.max(plain) + if signals > 0.0 { 22.0 } else { 0.0 } + if signals * plain > 0.0 { 12.0 } else { 0.0 },
    }
}

/// The trains that stand in each section.
fn standing(station: &Station) -> Vec<Vec<usize>> {
    let mut standing = vec![vec![]; station.sections()];
    for (number, sections) in station.trains() {
        for &section in sections {
            if let Some(trains) = standing.get_mut(place(section)) {
                trains.push(number);
            }
        }
    }
    standing
}

/// How many trains of a section stand in a row: one, or where they are many as many as have room for their numbers.
fn trains_in_a_row(trains: &[usize]) -> usize {
    match trains {
        [] | [_] | [_, _] | [_, _, _] => 1,
        many if many.iter().any(|&train| train > 99) => 2,
        _ => 3,
    }
}

fn rows_of_trains(trains: &[usize]) -> usize {
    trains.len().div_ceil(trains_in_a_row(trains))
}

fn rooms<'a, I: Iterator<Item = &'a Paths>>(station: &Station, paths: impl Fn() -> I) -> Vec<Room> {
    let mut rooms: Vec<Room> = standing(station)
        .iter()
        .map(|trains| {
            let rows = rows_of_trains(trains) as f64;
            Room {
                above: ABOVE.max(rows * (TRAIN_HEIGHT + 2.0) + TRAIN_FOOT + 6.0),
                below: BELOW,
                length: if trains.is_empty() { LENGTH } else { LENGTH_WITH_TRAIN },
            }
        })
        .collect();
    for section in paths().flat_map(Paths::sections) {
        if let Some(room) = rooms.get_mut(section) {
            room.below = BELOW + PATHS_BELOW;
        }
    }
    for section in paths().flat_map(|paths| &paths.ends).map(|end| end.section).collect::<BTreeSet<_>>() {
        if let Some(room) = rooms.get_mut(section) {
            room.length = LENGTH_WITH_TRAIN;
            room.above += 8.0;
            room.below = BELOW + PATHS_BELOW + MEETING_BELOW;
        }
    }
    for room in &mut rooms {
        room.above = (room.above / 4.0).ceil() * 4.0;
        room.below = (room.below / 4.0).ceil() * 4.0;
    }
    rooms
}

impl Sheet<'_> {
    fn left_end(&self, section: usize) -> Point {
        self.layout.sections.get(section).copied().unwrap_or_default()
    }

    fn right_end(&self, section: usize) -> Point {
        self.left_end(section) + point(self.length(section), 0.0)
    }

    fn middle(&self, section: usize) -> Point {
        self.left_end(section) + point(self.length(section) / 2.0, 0.0)
    }

    fn length(&self, section: usize) -> f64 {
        self.layout.lengths.get(section).copied().unwrap_or_default()
    }

    /// The track between two sections.
    fn track_between(&self, one: usize, two: usize) -> Option<usize> {
        let ends = [one.min(two), one.max(two)];
        self.tracks.binary_search_by_key(&ends, |track| track.ends).ok()
    }

    /// Whether a section is the left end of a track.
    fn is_left(&self, track: usize, section: usize) -> bool {
        (self.tracks[track].ends[0] == section) != self.layout.ways[track].reversed
    }

    /// Whether the section at the left or at the right end of a track is the stem of a turnout that the track is a leg of.
    fn is_stem(&self, track: usize, at_left: bool) -> bool {
        self.points[track].is_some_and(|points| self.is_left(track, self.tracks[track].ends[points.stem]) == at_left)
    }

    /// The states in which an element is drawn: both, where a walk sets it.
    fn states(&self, element: usize) -> Vec<State> {
        if self.picture.walk.is_some() && self.station.is_open(element) {
            return vec![State::One, State::Two];
        }
        vec![self.station.states.get(element - 1).copied().unwrap_or_default()]
    }

    /// The attribute by which a frame of a walk shows an element in a state, or does not.
    fn when(&self, element: usize, state: State) -> String {
        if self.states(element).len() == 1 { String::new() } else { format!(" style=\"display:var(--e{element}s{state})\"") }
    }

    fn legend(&self) -> Legend {
        let cut = self.layout.ways.iter().any(|way| !way.stubs.is_empty());
        Legend::of(self.picture, cut)
    }

    /// Puts the parts together, under a title and over a legend.
    fn finish(self) -> String {
        let picture = self.picture;
        let width = self.layout.width.max(NARROWEST) + 2.0 * MARGIN;
        let titles = broken(&picture.title, 18.0 * BOLD, width - 2.0 * MARGIN);
        let subtitles = broken(&picture.subtitle, 13.0, width - 2.0 * MARGIN);
        // In a page the title stands above the picture.
        let mut y = if picture.alone { 14.0 } else { 0.0 };
        let mut head = String::new();
        for (class, size, lines) in [("title", 18.0, &titles), ("subtitle", 13.0, &subtitles)].into_iter().filter(|_| picture.alone) {
            for line in lines {
                y += size + 4.0;
                let _ = write!(head, "<text class=\"{class}\" x=\"{}\" y=\"{}\">{}</text>", short(MARGIN), short(y), escaped(line));
            }
        }
        let top = y + 22.0;
        let legend = self.legend();
        let below = top + self.layout.height + 16.0;
        let (legend, bottom) = legend.draw(MARGIN, below, width - 2.0 * MARGIN);
        let height = bottom + 14.0;
        let left = MARGIN + (width - 2.0 * MARGIN - self.layout.width) / 2.0;
        let (w, h) = (short(width.ceil()), short(height.ceil()));
        let prefix = escaped(&picture.prefix);
        let mut text = format!(
            "<svg xmlns=\"http://www.w3.org/2000/svg\" class=\"station-picture\" role=\"img\" aria-labelledby=\"{prefix}title {prefix}desc\" width=\"{w}\" height=\"{h}\" viewBox=\"0 0 {w} {h}\">\n"
        );
        let _ = writeln!(text, "<title id=\"{prefix}title\">{}</title>", escaped(&picture.title));
        let _ = writeln!(text, "<desc id=\"{prefix}desc\">{}</desc>", escaped(&self.description()));
        if picture.alone {
            let _ = writeln!(text, "<style>{}</style>", style::STYLE);
        }
        let _ = writeln!(text, "<defs>{}</defs>", HATCH.replace("\"hatch\"", &format!("\"{prefix}hatch\"")));
        let _ = writeln!(text, "<rect width=\"{w}\" height=\"{h}\" fill=\"#fff\"/>");
        let _ = writeln!(text, "<g>{head}</g>");
        let _ = writeln!(text, "<g transform=\"translate({} {})\">", short(left), short(top));
        text += &self.ground;
        text += &self.lines;
        text += &self.above;
        text += "</g>\n";
        text += &legend.replace("url(#hatch)", &format!("url(#{prefix}hatch)"));
        text += "</svg>\n";
        text
    }

    /// The picture in words, for who cannot see it.
    fn description(&self) -> String {
        const MOST: usize = 60;
        let station = self.station;
        let mut words = vec![self.picture.subtitle.clone()];
        words.extend(station.trains().map(|(number, _)| format!("{}.", station.train_words(number))));
        if station.filed.elements.len() <= MOST && station.filed.plain.len() <= MOST {
            let plain: Vec<String> = station.filed.plain.iter().map(|(from, to)| format!("{from} to {to}")).collect();
            if !plain.is_empty() {
                words.push(format!("P lines: {}.", plain.join(", ")));
            }
            words.extend(
                station
                    .elements()
                    .map(|(number, element, _)| format!("{}, over {}.", station.element_words(number), crate::model::place(element))),
            );
        }
        if let Some(paths) = self.picture.paths {
            for course in &paths.courses {
                let name = course.name(paths.drawn);
                words.push(format!("Path {name}, of train {}: {}.", course.train, course.words));
                words.extend(course.wrong.iter().map(|(_, why)| format!("In path {name}, {why}.")));
            }
            words.extend(paths.ends.iter().map(|end| match end.meeting {
                true => format!("They meet in section {}.", end.section + 1),
                false => format!("{}: section {}.", end.words, end.section + 1),
            }));
        }
        if !self.picture.keeping.is_empty() {
            words.push(format!("To keep it safe, not to be touched: {}.", listed(self.picture.keeping)));
        }
        words.join(" ")
    }
}

/// A text with its middle, its start or its end at a point.
fn text(class: &str, at: Point, anchor: &str, words: &str) -> String {
    let anchor = if anchor == "start" { String::new() } else { format!(" text-anchor=\"{anchor}\"") };
    format!("<text class=\"{class}\" x=\"{}\" y=\"{}\"{anchor}>{}</text>", short(at.x), short(at.y), escaped(words))
}

/// An arrow head with its tip in a direction.
fn arrow(class: &str, at: Point, along: Point, size: f64) -> String {
    let corners = arrow_corners(at, along, size).map(|p| format!("{} {}", short(p.x), short(p.y)));
    format!("<path class=\"{class}\" d=\"M{}Z\"/>", corners.join("L"))
}

/// The corners of an arrow head from its tip on: long, narrow and hollow at the back, so that no other corner looks like the tip on any slope.
fn arrow_corners(at: Point, along: Point, size: f64) -> [Point; 4] {
    let side = along.turned() * (size * 0.4);
    let [tip, back, hollow] = [0.76, -0.64, -0.42].map(|share| at + along * (size * share));
    [tip, back + side, hollow, back - side]
}
