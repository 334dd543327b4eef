//! What lies over what in a picture: the boxes of all its texts, lamps, arrows and trains, measured in its SVG alone.
//!
//! A text is as wide as its widest typeface makes it: each letter has its advance in DejaVu Sans or in Liberation Sans (which has the widths of Arial and
//! Helvetica), whichever is more. It is as high as its letters reach: 0.73 of its size, 0.76 where they rise above figures, and 0.24 below the line where they hang.

use super::measured::{Piece, Point, pieces, points};

/// Numbers of a picture are rounded to tenths.
const TOUCH: f64 = 0.1;

/// The advances of the letters from the space to ~ in thousandths of the size.
const PLAIN: [u16; 95] = [
    318, 401, 460, 838, 636, 950, 780, 275, 390, 390, 500, 838, 318, 361, 318, 337, 636, 636, 636, 636, 636, 636, 636, 636, 636, 636, 337,
    337, 838, 838, 838, 531, 1015, 684, 686, 698, 770, 632, 575, 775, 752, 295, 500, 656, 557, 863, 748, 787, 603, 787, 695, 635, 611, 732,
    684, 989, 685, 611, 685, 390, 337, 390, 838, 500, 500, 613, 635, 550, 635, 615, 352, 635, 634, 278, 278, 579, 278, 974, 634, 612, 635,
    635, 411, 521, 392, 634, 592, 818, 592, 592, 525, 636, 337, 636, 838,
];
const BOLD: [u16; 95] = [
    348, 456, 521, 838, 696, 1002, 872, 306, 457, 457, 523, 838, 380, 415, 380, 365, 696, 696, 696, 696, 696, 696, 696, 696, 696, 696, 400,
    400, 838, 838, 838, 580, 1000, 774, 762, 734, 830, 683, 683, 821, 837, 372, 556, 775, 637, 995, 837, 850, 733, 850, 770, 720, 682, 812,
    774, 1103, 771, 724, 725, 457, 365, 457, 838, 500, 500, 675, 716, 593, 716, 678, 435, 716, 712, 343, 343, 665, 343, 1042, 712, 687,
    716, 716, 493, 595, 478, 712, 652, 924, 645, 652, 582, 712, 365, 712, 838,
];

/// What covers a part of the picture: a polygon without a corner that goes inwards.
#[derive(Clone, Debug)]
pub struct Covering {
    pub words: String,
    kind: Kind,
    /// What is in one group belongs together: a lamp and its face, a train and its number.
    group: usize,
    corners: Vec<Point>,
}

#[derive(Clone, Copy, Debug, PartialEq)]
enum Kind {
    Text,
    Lamp,
    Arrow,
    Train,
}

impl Covering {
    fn new(kind: Kind, words: &str, piece: &Piece, corners: &[Point]) -> Covering {
        let corners = corners.iter().map(|p| (p.0 + piece.shift.0, p.1 + piece.shift.1)).collect();
        Covering { words: String::from(words), kind, group: piece.group, corners }
    }

    fn rectangle(kind: Kind, words: &str, piece: &Piece, from: Point, to: Point) -> Covering {
        Covering::new(kind, words, piece, &[from, (to.0, from.1), to, (from.0, to.1)])
    }

    /// How far it reaches in a direction.
    fn span(&self, along: Point) -> (f64, f64) {
        let reach = self.corners.iter().map(|p| p.0 * along.0 + p.1 * along.1);
        reach.fold((f64::MAX, f64::MIN), |(low, high), at| (low.min(at), high.max(at)))
    }

    /// Whether one lies over the other: no side of either has one of them on this side of it and the other beyond.
    fn meets(&self, other: &Covering) -> bool {
        let is_apart = |along: Point| {
            let (one, two) = (self.span(along), other.span(along));
            one.1 <= two.0 + TOUCH || two.1 <= one.0 + TOUCH
        };
        let sides = |of: &Covering| -> Vec<Point> {
            let next = of.corners.iter().cycle().skip(1);
            of.corners.iter().zip(next).map(|(from, to)| (from.1 - to.1, to.0 - from.0)).collect()
        };
        self.group != other.group && !sides(self).into_iter().chain(sides(other)).any(is_apart)
    }
}

/// The arrows of two P lines meet wherever their tracks do.
fn may_meet(one: &Covering, two: &Covering) -> bool {
    one.kind == Kind::Arrow && two.kind == Kind::Arrow
}

/// The size of a text's letters and whether they are bold, as the style sheet has it.
fn type_of(class: &str) -> (f64, bool) {
    match class.split(' ').next().unwrap_or("") {
        "title" => (18.0, true),
        "number" => (15.0, true),
        "ask" => (11.0, true),
        "meets" | "on-a" | "on-b" => (13.0, true),
        "on" => (12.0, false),
        _ => (13.0, false),
    }
}

/// How wide a text is at most.
fn wide(text: &str, (size, bold): (f64, bool)) -> f64 {
    let table = if bold { &BOLD } else { &PLAIN };
    let advance =
        |c: char| usize::try_from(u32::from(c).wrapping_sub(32)).ok().and_then(|place| table.get(place)).map_or(1000, |&wide| wide);
    text.chars().map(|c| f64::from(advance(c))).sum::<f64>() * size / 1000.0
}

/// The text with its characters as they are shown.
fn shown(text: &str) -> String {
    [("&lt;", "<"), ("&gt;", ">"), ("&quot;", "\""), ("&#39;", "'"), ("&amp;", "&")]
        .iter()
        .fold(String::from(text), |text, (written, shown)| text.replace(written, shown))
}

fn of_text(piece: &Piece) -> Covering {
    let class = piece.class();
    let letters = type_of(class);
    let words = shown(piece.text);
    let wide = wide(&words, letters);
    let in_the_middle = ["number", "ask", "name", "meets", "on-a", "on-b"].iter().any(|name| class.split(' ').any(|class| class == *name));
    let left = match piece.get("text-anchor") {
        Some("end") => piece.number("x") - wide,
        Some("middle") => piece.number("x") - wide / 2.0,
        _ if in_the_middle => piece.number("x") - wide / 2.0,
        _ => piece.number("x"),
    };
    let rise = if words.chars().any(|c| "bdfhkl()[]|".contains(c)) { 0.76 } else { 0.73 };
    let hang = if words.chars().any(|c| "gjpqy()[]|,;Q".contains(c)) { 0.24 } else { 0.02 };
    let base = piece.number("y");
    Covering::rectangle(Kind::Text, &words, piece, (left, base - rise * letters.0), (left + wide, base + hang * letters.0))
}

/// All texts, lamps, arrows and trains of a picture, those of its legend too.
fn coverings(svg: &str) -> Vec<Covering> {
    let found = pieces(svg).into_iter().filter_map(|piece| {
        let number = |name: &str| piece.number(name);
        let corner = || (number("x"), number("y"));
        let far_corner = || (number("x") + number("width"), number("y") + number("height"));
        match (piece.name, piece.class()) {
            ("text", _) => Some(of_text(&piece)),
            ("circle", "proceed" | "stop" | "open" | "badge-a" | "badge-b") => {
                let turn = |corner: u32| std::f64::consts::TAU * f64::from(corner) / 16.0;
                let at = |corner: u32| (number("cx") + number("r") * turn(corner).cos(), number("cy") + number("r") * turn(corner).sin());
                Some(Covering::new(Kind::Lamp, "lamp", &piece, &(0..16).map(at).collect::<Vec<_>>()))
            }
            ("rect", "body") => Some(Covering::rectangle(Kind::Train, "train", &piece, corner(), far_corner())),
            ("rect", "locked") => Some(Covering::rectangle(Kind::Lamp, "lock", &piece, corner(), far_corner())),
            ("path", "arrow") => {
                // Without the hollow at its back.
                let [tip, back, _, other] = points(piece.get("d").unwrap_or("")).0.concat()[..] else {
                    panic!("an arrow of other corners")
                };
                Some(Covering::new(Kind::Arrow, "arrow", &piece, &[tip, back, other]))
            }
            _ => None,
        }
    });
    found.collect()
}

/// The pairs of things of which one lies over the other.
pub fn overlaps(svg: &str) -> Vec<[String; 2]> {
    let mut all: Vec<((f64, f64), Covering)> = coverings(svg).into_iter().map(|one| (one.span((1.0, 0.0)), one)).collect();
    all.sort_by(|one, two| one.0.0.total_cmp(&two.0.0));
    let mut found = vec![];
    for (place, (across, one)) in all.iter().enumerate() {
        let near = all[place + 1..].iter().take_while(|(other, _)| other.0 < across.1).map(|(_, two)| two);
        found.extend(near.filter(|two| !may_meet(one, two) && one.meets(two)).map(|two| [one.words.clone(), two.words.clone()]));
    }
    found
}

/// The things that are not wholly within the picture.
pub fn outside(svg: &str) -> Vec<String> {
    let size =
        |name: &str| svg.split_once(&format!(" {name}=\"")).and_then(|(_, after)| after.split('"').next()?.parse().ok()).unwrap_or(0.0);
    let is_out = |one: &Covering| {
        let (across, down) = (one.span((1.0, 0.0)), one.span((0.0, 1.0)));
        across.0 < 0.0 || down.0 < 0.0 || across.1 > size("width") || down.1 > size("height")
    };
    coverings(svg).into_iter().filter(is_out).map(|one| one.words).collect()
}
