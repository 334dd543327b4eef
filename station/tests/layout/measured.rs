//! What a reader sees of a picture, measured in its SVG alone: at which end of a section each track is, crossings and bends.

use std::collections::BTreeMap;
use std::iter::Sum;
use std::ops::Add;

use judge::{ElementLine, Situation};

use super::boxes::overlaps;
use super::forced::broken;

pub type Point = (f64, f64);

/// A track as it is drawn: its two sections, the end of each at which it is (true: the right one), and its pieces as points in a row.
#[derive(Clone, Debug)]
pub struct Track {
    pub sections: [usize; 2],
    pub right: [bool; 2],
    pieces: Vec<Vec<Point>>,
    /// How many of its parts are not level.
    bends: usize,
}

/// The tracks of a picture, and those at each section: their numbers, and whether they join its right end.
pub struct Drawn {
    pub tracks: Vec<Track>,
    pub joined: BTreeMap<usize, Vec<(usize, bool)>>,
}

/// The figures of a picture, or of many.
#[derive(Clone, Copy, Debug, Default, PartialEq)]
pub struct Figures {
    /// Sections of two tracks that a train can run through, and both are at one end.
    pub folds: usize,
    /// Tracks at a stem on the side of its legs, and turnouts with a leg on either side.
    pub third_legs: usize,
    pub parted_legs: usize,
    /// Folds, and third or parted legs, that the tracks do not force; tracks that turn, and those of them that need not.
    pub unforced: usize,
    pub turns: usize,
    pub unforced_turns: usize,
    pub crossings: usize,
    /// Pieces of track that are not level.
    pub bends: usize,
    /// Straight legs that leave the line of their stem.
    pub bent_straight_legs: usize,
    /// Labels, lamps and trains that lie over one another; tracks that run over a section that is not theirs.
    pub overlaps: usize,
    pub over_sections: usize,
    /// Rows that tracks go on to, tracks that are cut, legs cut from their stems, and long trains cut.
    pub rows: usize,
    pub cuts: usize,
    pub leg_cuts: usize,
    pub train_cuts: usize,
    /// Signals to the left of the way of their moves.
    pub left_signals: usize,
    pub signals: usize,
    pub area: f64,
    pub width: f64,
}

impl Add for Figures {
    type Output = Figures;
    fn add(self, other: Figures) -> Figures {
        Figures {
            folds: self.folds + other.folds,
            third_legs: self.third_legs + other.third_legs,
            parted_legs: self.parted_legs + other.parted_legs,
            unforced: self.unforced + other.unforced,
            turns: self.turns + other.turns,
            unforced_turns: self.unforced_turns + other.unforced_turns,
            crossings: self.crossings + other.crossings,
            bends: self.bends + other.bends,
            bent_straight_legs: self.bent_straight_legs + other.bent_straight_legs,
            overlaps: self.overlaps + other.overlaps,
            over_sections: self.over_sections + other.over_sections,
            rows: self.rows + other.rows,
            cuts: self.cuts + other.cuts,
            leg_cuts: self.leg_cuts + other.leg_cuts,
            train_cuts: self.train_cuts + other.train_cuts,
            left_signals: self.left_signals + other.left_signals,
            signals: self.signals + other.signals,
            area: self.area + other.area,
            width: self.width.max(other.width),
        }
    }
}

impl Sum for Figures {
    fn sum<I: Iterator<Item = Figures>>(all: I) -> Figures {
        all.fold(Figures::default(), Add::add)
    }
}

/// An element of the SVG: name, attributes as they are written, its text, the outermost group within the picture's own, and how far all of that is moved.
pub struct Piece<'a> {
    pub name: &'a str,
    attributes: &'a str,
    pub text: &'a str,
    pub group: usize,
    pub shift: Point,
    /// It is no part of the title or of the legend.
    inside: bool,
}

impl Piece<'_> {
    pub fn get(&self, name: &str) -> Option<&str> {
        let (_, after) = self.attributes.split_once(&format!(" {name}=\""))?;
        after.split('"').next()
    }

    pub fn number(&self, name: &str) -> f64 {
        self.get(name).and_then(|text| text.parse().ok()).unwrap_or(0.0)
    }

    pub fn class(&self) -> &str {
        self.get("class").unwrap_or("")
    }
}

/// All pieces, of the title, of the picture and of the legend. In the title and in the legend each stands for itself, but for the question mark on a lamp.
pub fn pieces(svg: &str) -> Vec<Piece<'_>> {
    let body = svg.split_once("</defs>").map_or("", |(_, body)| body);
    let (mut pieces, mut depth, mut group) = (vec![], 0, 0);
    let (mut shift, mut inside) = ((0.0, 0.0), false);
    for part in body.split('<').skip(1) {
        let (tag, text) = part.split_once('>').unwrap_or((part, ""));
        let name = tag.split([' ', '/']).next().unwrap_or("");
        if tag.starts_with('/') {
            depth -= usize::from(tag == "/g");
            if depth == 0 {
                (shift, inside) = ((0.0, 0.0), false);
            }
            continue;
        }
        group += usize::from(if inside { depth == 1 } else { !tag.contains("\"ask\"") });
        if name == "g" {
            if let Some((x, y)) = tag.split_once("transform=\"translate(").and_then(|(_, at)| at.split(')').next()?.split_once(' ')) {
                shift = (x.parse().expect("a number"), y.parse().expect("a number"));
                inside = true;
            }
            depth += 1;
        }
        pieces.push(Piece { name, attributes: &tag[name.len()..], text, group, shift, inside });
    }
    pieces
}

/// The pieces of the picture between its title and its legend.
fn inner(svg: &str) -> impl Iterator<Item = Piece<'_>> {
    pieces(svg).into_iter().filter(|piece| piece.inside)
}

/// The points along path data with M, L, H, V, C, v and h, piece by piece; and how many of its parts are not level.
pub fn points(data: &str) -> (Vec<Vec<Point>>, usize) {
    let mut pieces: Vec<Vec<Point>> = vec![];
    let (mut bends, mut at) = (0, (0.0, 0.0));
    let mut rest = data;
    while let Some(letter) = rest.chars().next() {
        let end = rest[1..].find(|c: char| c.is_ascii_alphabetic()).map_or(rest.len(), |end| end + 1);
        let numbers: Vec<f64> = rest[1..end].split([' ', ',']).filter_map(|number| number.parse().ok()).collect();
        rest = &rest[end..];
        let from = at;
        match (letter, &numbers[..]) {
            ('M', &[x, y]) => {
                at = (x, y);
                pieces.push(vec![at]);
            }
            ('L', &[x, y]) => at = (x, y),
            ('H', &[x]) => at.0 = x,
            ('V', &[y]) => at.1 = y,
            ('v', &[y]) => at.1 += y,
            ('C', &[a, b, c, d, x, y]) => {
                bends += usize::from((y - from.1).abs() > 0.5);
                let piece = pieces.last_mut().expect("a start");
                for step in 1..16 {
                    let t = f64::from(step) / 16.0;
                    let u = 1.0 - t;
                    let mix = |p: f64, q: f64, r: f64, s: f64| u * u * u * p + 3.0 * u * u * t * q + 3.0 * u * t * t * r + t * t * t * s;
                    piece.push((mix(from.0, a, c, x), mix(from.1, b, d, y)));
                }
                at = (x, y);
            }
            ('Z', _) => continue,
            _ => panic!("path data {letter} {numbers:?}"),
        }
        if letter != 'M' {
            pieces.last_mut().expect("a start").push(at);
        }
    }
    (pieces, bends)
}

fn distance(one: Point, two: Point) -> f64 {
    (one.0 - two.0).hypot(one.1 - two.1)
}

/// The left ends and the width of the sections, by their numbers.
pub fn sections(svg: &str) -> BTreeMap<usize, (Point, f64)> {
    let mut found = BTreeMap::new();
    let mut number = 0;
    for piece in inner(svg) {
        if let Some(words) = piece.text.strip_prefix("section ").filter(|_| piece.name == "title") {
            number = words.parse().unwrap_or(0);
        }
        if piece.class() == "bar" && piece.name == "path" {
            let (line, _) = points(piece.get("d").unwrap_or(""));
            found.insert(number, (line[0][0], line[0][1].0 - line[0][0].0));
        }
    }
    found
}

pub fn drawn(svg: &str) -> Drawn {
    let places = sections(svg);
    let mut tracks = vec![];
    let mut title = "";
    for piece in inner(svg) {
        if piece.name == "title" {
            title = piece.text;
        }
        if piece.name != "path" || !piece.class().split(' ').any(|class| class == "track") {
            continue;
        }
        let numbers: Vec<usize> = title.split([' ', ':']).filter_map(|word| word.parse().ok()).take(2).collect();
        let [one, two] = numbers[..] else { panic!("a track named {title}") };
        let (pieces, bends) = points(piece.get("d").unwrap_or(""));
        let ends: Vec<Point> = pieces.iter().flat_map(|piece| [piece[0], piece[piece.len() - 1]]).collect();
        // Two ends, one for each section: the nearest to either end of its bar.
        let nearest = |section: usize| {
            let (left, wide) = places[&section];
            let right = (left.0 + wide, left.1);
            let to = |p: Point| ends.iter().map(|&end| distance(end, p)).fold(f64::MAX, f64::min);
            to(right) < to(left)
        };
        tracks.push(Track { sections: [one, two], right: [nearest(one), nearest(two)], pieces, bends });
    }
    let mut joined = BTreeMap::<usize, Vec<(usize, bool)>>::new();
    for (number, track) in tracks.iter().enumerate() {
        for (section, right) in track.sections.into_iter().zip(track.right) {
            joined.entry(section).or_default().push((number, right));
        }
    }
    Drawn { tracks, joined }
}

/// Whether two lines from point to point cross, and not just touch.
fn cross(one: [Point; 2], two: [Point; 2]) -> bool {
    let side = |line: [Point; 2], p: Point| (line[1].0 - line[0].0) * (p.1 - line[0].1) - (line[1].1 - line[0].1) * (p.0 - line[0].0);
    let parted = |line: [Point; 2], other: [Point; 2]| side(line, other[0]) * side(line, other[1]) < -1e-6;
    parted(one, two) && parted(two, one)
}

fn lines(piece: &[Point]) -> impl Iterator<Item = [Point; 2]> + '_ {
    piece.windows(2).map(|pair| [pair[0], pair[1]])
}

/// How often two pieces cross. One place counts once.
fn crossings(one: &[Point], two: &[Point]) -> usize {
    let span = |piece: &[Point], of: fn(&Point) -> f64| {
        piece.iter().map(of).fold((f64::MAX, f64::MIN), |(low, high), x| (low.min(x), high.max(x)))
    };
    let apart = |of: fn(&Point) -> f64| {
        let (one, two) = (span(one, of), span(two, of));
        one.1 < two.0 || two.1 < one.0
    };
    if apart(|p| p.0) || apart(|p| p.1) {
        return 0;
    }
    lines(one).map(|a| lines(two).filter(|&b| cross(a, b)).count()).sum()
}

/// Whether a pair of sections, in either order, is a turnout's stem and one of its legs.
fn is_leg(situation: &Situation, sections: [usize; 2]) -> bool {
    situation.elements.iter().any(|element| match *element {
        ElementLine::Turnout { stem, straight, diverted, .. } => [straight, diverted].into_iter().any(|leg| {
            let pair = [usize::from(stem.0), usize::from(leg.0)];
            pair == sections || pair == [sections[1], sections[0]]
        }),
        ElementLine::Signal { .. } => false,
    })
}

/// Whether a train can come from a section to another, by its P lines and elements.
fn can(situation: &Situation, from: usize, to: usize) -> bool {
    let pair = |a: judge::Section, b: judge::Section| (usize::from(a.0), usize::from(b.0)) == (from, to);
    let signal = |element: &ElementLine| matches!(*element, ElementLine::Signal { from, to, .. } if pair(from, to));
    situation.plain.iter().any(|&(a, b)| pair(a, b)) || situation.elements.iter().any(signal) || is_leg(situation, [from, to])
}

/// Whether a section has two tracks, is the stem of no turnout, and a train can come by one track and leave by the other.
pub fn can_run_through(situation: &Situation, drawn: &Drawn, section: usize) -> bool {
    let [(one, _), (two, _)] = drawn.joined[&section][..] else { return false };
    let [one, two] = [one, two].map(|number| drawn.tracks[number].sections.into_iter().find(|&other| other != section).unwrap_or(0));
    let through = |from: usize, to: usize| can(situation, from, section) && can(situation, section, to);
    let is_stem = |element: &ElementLine| matches!(*element, ElementLine::Turnout { stem, .. } if usize::from(stem.0) == section);
    (through(one, two) || through(two, one)) && !situation.elements.iter().any(is_stem)
}

/// How many sections that a train can run through have both tracks at one end.
fn folds(situation: &Situation, drawn: &Drawn) -> usize {
    let is_fold = |section: usize, here: &[(usize, bool)]| {
        here.iter().all(|track| track.1 == here[0].1) && can_run_through(situation, drawn, section)
    };
    drawn.joined.iter().filter(|&(&section, here)| is_fold(section, here)).count()
}

/// How many turnouts have their legs at two ends of the stem, and how many other tracks are at the end of a leg.
fn legs(situation: &Situation, Drawn { tracks, joined }: &Drawn) -> (usize, usize) {
    let (mut parted, mut third) = (0, 0);
    for element in &situation.elements {
        let ElementLine::Turnout { stem, straight, diverted, .. } = *element else { continue };
        let [stem, straight, diverted] = [stem, straight, diverted].map(|section| usize::from(section.0));
        let here = &joined[&stem];
        let leg = |leg: usize| here.iter().find(|&&(number, _)| tracks[number].sections.contains(&leg)).expect("a leg");
        let legs = [leg(straight), leg(diverted)];
        parted += usize::from(legs[0].1 != legs[1].1);
        let others = here.iter().filter(|(number, _)| legs.iter().all(|leg| leg.0 != *number));
        third += others.filter(|other| legs.iter().any(|leg| leg.1 == other.1)).count();
    }
    (parted, third)
}

fn bent_straight_legs(situation: &Situation, tracks: &[Track]) -> usize {
    let is_bent = |stem: usize, leg: usize| {
        tracks.iter().any(|track| track.bends > 0 && track.sections.contains(&stem) && track.sections.contains(&leg))
    };
    let bent = |element: &&ElementLine| match **element {
        ElementLine::Turnout { stem, straight, .. } => is_bent(usize::from(stem.0), usize::from(straight.0)),
        ElementLine::Signal { .. } => false,
    };
    situation.elements.iter().filter(bent).count()
}

/// How often the tracks cross one another.
fn all_crossings(tracks: &[Track]) -> usize {
    let pairs = tracks.iter().enumerate().flat_map(|(place, one)| tracks[place + 1..].iter().map(move |two| (one, two)));
    pairs.flat_map(|(one, two)| one.pieces.iter().flat_map(|a| two.pieces.iter().map(move |b| crossings(a, b)))).sum()
}

/// How many signals the picture has, and how many of them stand on the left of their way.
fn signals(svg: &str) -> (usize, usize) {
    let sides = inner(svg).filter(|piece| piece.class() == "post" && piece.name == "path").filter_map(|piece| {
        let (line, _) = points(piece.get("d").unwrap_or(""));
        let [foot, top, lamp] = line[0][..] else { return None };
        Some((top.1 < foot.1) == (lamp.0 > top.0))
    });
    sides.fold((0, 0), |(signals, left), is_left| (signals + 1, left + usize::from(is_left)))
}

/// How many rows follow on another: the places where tracks are cut, those of one place being at the same x, and each cut track passing from one row to the next.
fn rows(tracks: &[Track]) -> usize {
    let mut places: BTreeMap<[i64; 2], Vec<(f64, f64)>> = BTreeMap::new();
    for pair in tracks.iter().flat_map(|track| track.pieces.windows(2)) {
        let (end, start) = (pair[0][pair[0].len() - 1], pair[1][0]);
        places.entry([end.0 as i64, start.0 as i64]).or_default().push((start.1, end.1));
    }
    let mut rows = 0;
    for passes in places.values_mut() {
        passes.sort_by(|one, two| one.0.total_cmp(&two.0));
        let mut last = f64::MIN;
        for &(below, above) in passes.iter() {
            if above >= last {
                (rows, last) = (rows + 1, below);
            }
        }
    }
    rows
}

/// The figures of one picture of a station.
pub fn figures(svg: &str, situation: &Situation) -> Figures {
    let drawn = drawn(svg);
    let tracks = &drawn.tracks;
    let places = sections(svg);
    let size =
        |name: &str| svg.split_once(&format!(" {name}=\"")).and_then(|(_, after)| after.split('"').next()?.parse().ok()).unwrap_or(0.0);
    let (parted_legs, third_legs) = legs(situation, &drawn);
    let [folds_forced, legs_forced, turns] = broken(situation, &drawn);
    let (signals, left_signals) = signals(svg);
    let mut figures = Figures {
        width: size("width"),
        area: size("width") * size("height"),
        bends: tracks.iter().map(|track| track.bends).sum(),
        bent_straight_legs: bent_straight_legs(situation, tracks),
        overlaps: overlaps(svg).len(),
        folds: folds(situation, &drawn),
        unforced: folds_forced.unforced + legs_forced.unforced,
        turns: turns.forced + turns.unforced,
        unforced_turns: turns.unforced,
        parted_legs,
        third_legs,
        crossings: all_crossings(tracks),
        signals,
        left_signals,
        rows: rows(tracks),
        ..Figures::default()
    };
    for track in tracks {
        for (section, &((x, y), wide)) in &places {
            if !track.sections.contains(section) {
                let inside = |&(px, py): &Point| px > x + 2.0 && px < x + wide - 2.0 && (py - y).abs() < 5.0;
                figures.over_sections += usize::from(track.pieces.iter().flatten().any(inside));
            }
        }
        let cuts = track.pieces.len() - 1;
        figures.cuts += cuts;
        if cuts > 0 {
            figures.leg_cuts += usize::from(is_leg(situation, track.sections));
            figures.train_cuts += usize::from(super::plans::coupled(situation, track.sections));
        }
    }
    figures
}
