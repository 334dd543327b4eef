//! The legend: what occurs in the picture, and no more.

use std::fmt::Write;

use judge::State;

use super::elements::lamp_mark;
use super::keeping::lock;
use super::markup::{escaped, short, text_width};
use super::paths::Course;
use super::style::LABEL;
use super::trains::cross;
use super::{Picture, arrow};
use crate::layout::curve::point;

/// Symbols with their words.
pub struct Legend {
    entries: Vec<(Symbol, String)>,
}

#[derive(Clone, Copy)]
enum Symbol {
    Section,
    Plain,
    Signal(State, bool),
    Set,
    Unset,
    Neither,
    Train,
    LongTrain,
    Path(char),
    Meeting,
    Cross,
    Lock,
    Stub,
}

const SYMBOL: f64 = 52.0;
const ROW: f64 = 25.0;

impl Legend {
    /// `cut`: tracks break off at the end of a band.
    pub fn of(picture: &Picture, cut: bool) -> Legend {
        let station = picture.station;
        // A walk shows its open elements in both states.
        let walk = picture.walk.is_some();
        let shown = |number: usize, state: State, wanted: State| match walk && station.is_open(number) {
            true => wanted != State::Open,
            false => state == wanted,
        };
        let mut entries = vec![(Symbol::Section, String::from("section"))];
        let mut add = |there: bool, symbol: Symbol, words: &str| {
            if there {
                entries.push((symbol, String::from(words)));
            }
        };
        add(!station.filed.plain.is_empty(), Symbol::Plain, "P line: the move of its arrow");
        let signal =
            |wanted: State| station.elements().any(|(number, element, state)| !element.is_turnout() && shown(number, state, wanted));
        let turnout =
            |wanted: State| station.elements().any(|(number, element, state)| element.is_turnout() && shown(number, state, wanted));
        let set = turnout(State::One) || turnout(State::Two);
        let mut way = ", for moves the way its arm points";
        for (state, words) in
            [(State::One, "L: signal at proceed"), (State::Two, "L: signal at stop"), (State::Open, "L: signal left open")]
        {
            if signal(state) {
                add(true, Symbol::Signal(state, false), &format!("{words}{way}"));
                way = "";
            }
        }
        add(set, Symbol::Set, "D: turnout with the leg that is set, both ways");
        add(set, Symbol::Unset, "leg that is not set");
        add(turnout(State::Open), Symbol::Neither, "D: turnout left open: 1 straight leg, 2 diverted leg");
        let chosen = station.elements().any(|(number, _, state)| station.is_open(number) && (walk || state != State::Open));
        add(chosen, Symbol::Signal(State::One, true), "dashed ring: open in the file, shown as the setting has it");
        let long = |wanted: bool| station.trains().any(|(_, sections)| (sections.len() > 1) == wanted);
        add(long(false), Symbol::Train, "train");
        add(long(true), Symbol::LongTrain, "train over several sections");
        if picture.walk.is_some_and(|walk| !walk.is_empty()) {
            add(true, Symbol::Path('a'), "path A, of the first train that is named");
            add(true, Symbol::Path('b'), "path B, of the second");
            add(true, Symbol::Meeting, "section where they meet");
        }
        if let Some(paths) = picture.paths {
            for course in &paths.courses {
                add(true, Symbol::Path(course.letter), &format!("path {}, of train {}", course.name(paths.drawn), course.train));
            }
            add(paths.courses.iter().any(Course::has_cross), Symbol::Cross, "not permitted");
            add(paths.ends.iter().any(|end| end.meeting), Symbol::Meeting, "section where they meet");
        }
        add(!picture.keeping.is_empty(), Symbol::Lock, "keeps the station safe: not to be touched");
        add(cut, Symbol::Stub, "goes on at section 7, in a row below");
        Legend { entries }
    }

    /// Draws the legend in rows; gives the text and where it ends.
    pub fn draw(&self, left: f64, top: f64, width: f64) -> (String, f64) {
        let mut text = format!("<g class=\"legend\"><path class=\"rule\" d=\"M{} {}H{}\"/>", short(left), short(top), short(left + width));
        let (mut x, mut y) = (left, top + ROW);
        for (symbol, words) in &self.entries {
            let wide = SYMBOL + 8.0 + text_width(words, LABEL) + 14.0;
            if x > left && x + wide - 14.0 > left + width {
                x = left;
                y += ROW;
            }
            text += &symbol.draw(x, y);
            let _ = write!(text, "<text x=\"{}\" y=\"{}\">{}</text>", short(x + SYMBOL + 8.0), short(y + 4.0), escaped(words));
            x += wide;
        }
        text += "</g>\n";
        (text, y + ROW / 2.0)
    }
}

impl Symbol {
    /// A small example, with its line at a height.
    fn draw(self, x: f64, y: f64) -> String {
        let (end, middle, right) = (x + SYMBOL, point(x + SYMBOL / 2.0, y), point(1.0, 0.0));
        match self {
            Symbol::Section => section(x, y),
            Symbol::Plain => format!("{}{}", line("track", x, end, y), arrow("arrow", middle, right, 13.0)),
            Symbol::Signal(state, open) => signal(x, y, state, open),
            Symbol::Set => format!("{}{}", line("track set", x + 4.0, end, y), points(x, y)),
            Symbol::Unset => format!("{}{}", line("track unset", x + 26.0, end, y), points(x, y)),
            Symbol::Neither => format!("{}{}", open_legs(x, y), points(x, y)),
            Symbol::Train => format!("{}{}", bar(x, y, "6"), body(x + 9.0, y - 10.0, "34")),
            Symbol::LongTrain => {
                let band = format!("<path d=\"M{} {}H{}\" stroke=\"#ffe59b\" stroke-width=\"14\"/>", short(x), short(y + 4.0), short(end));
                format!("{band}{}{}{}", bar(x, y, "4"), body(x + 4.0, y - 11.0, "18"), body(x + 30.0, y - 11.0, "18"))
            }
            Symbol::Path(letter) => {
                format!("{}{}", line(&format!("path-{letter}"), x, end, y), arrow(&format!("tip-{letter}"), middle, right, 11.0))
            }
            Symbol::Meeting => format!(
                "<rect class=\"meeting\" fill=\"url(#hatch)\" x=\"{}\" y=\"{}\" width=\"{}\" height=\"18\" rx=\"6\"/>",
                short(x + 2.0),
                short(y - 9.0),
                short(SYMBOL - 4.0)
            ),
            Symbol::Cross => cross(middle, "not permitted"),
            Symbol::Lock => lock(middle + point(-5.0, 5.0)),
            Symbol::Stub => {
                let words = format!("<text class=\"on label\" x=\"{}\" y=\"{}\">to 7</text>", short(x + 25.0), short(y + 4.0));
                format!("{}{words}", line("track", x, x + 22.0, y))
            }
        }
    }
}

fn line(class: &str, from: f64, to: f64, y: f64) -> String {
    format!("<path class=\"{class}\" d=\"M{} {}H{}\"/>", short(from), short(y), short(to))
}

fn section(x: f64, y: f64) -> String {
    let (end, top) = (x + SYMBOL, short(y - 7.0));
    format!("{}<path class=\"joint\" d=\"M{} {top}v14M{} {top}v14\"/>", line("bar", x, end, y), short(x), short(end))
}

/// The bar of a section, so far below the line.
fn bar(x: f64, y: f64, down: &str) -> String {
    line("bar", x, x + SYMBOL, y).replace("\"/>", &format!("\" transform=\"translate(0 {down})\"/>"))
}

fn body(x: f64, y: f64, width: &str) -> String {
    format!("<rect class=\"body\" x=\"{}\" y=\"{}\" width=\"{width}\" height=\"13\" rx=\"4\"/>", short(x), short(y))
}

fn signal(x: f64, y: f64, state: State, open: bool) -> String {
    let post = format!("<path class=\"post\" d=\"M{} {}V{}H{}\"/>", short(x + 14.0), short(y + 8.0), short(y - 3.0), short(x + 26.0));
    let lamp = lamp_mark(point(x + 30.0, y - 3.0), point(1.0, 0.0), state, open);
    format!("{}{post}{lamp}", line("track", x, x + SYMBOL, y + 8.0))
}

/// The stem of a turnout.
fn points(x: f64, y: f64) -> String {
    format!("<circle class=\"points\" cx=\"{}\" cy=\"{}\" r=\"4.5\"/>", short(x + 6.0), short(y))
}

/// The legs of a turnout that is left open.
fn open_legs(x: f64, y: f64) -> String {
    let (from, end) = (short(x + 22.0), short(x + SYMBOL));
    let [a, b, c, d] = [-3.0, -8.0, 3.0, 8.0].map(|down| short(y + down));
    format!("<path class=\"track unset\" d=\"M{from} {a}L{end} {b}M{from} {c}L{end} {d}\"/>")
}
