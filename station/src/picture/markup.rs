//! Text of XML: escaped characters, short numbers, paths.

use std::fmt::Write;

use crate::layout::curve::{Curve, Point};

/// Text with the characters that mean something in XML written otherwise, and control characters, which it cannot hold, as U+FFFD.
pub fn escaped(text: &str) -> String {
    let mut safe = String::with_capacity(text.len());
    for c in text.chars() {
        match c {
            '&' => safe += "&amp;",
            '<' => safe += "&lt;",
            '>' => safe += "&gt;",
            '"' => safe += "&quot;",
            '\'' => safe += "&#39;",
            '\n' | '\t' => safe.push(c),
            '\u{fffe}' | '\u{ffff}' => safe.push('\u{fffd}'),
            c if c.is_control() => safe.push('\u{fffd}'),
            c => safe.push(c),
        }
    }
    safe
}

/// A number with at most one digit after the point.
pub fn short(number: f64) -> String {
    let tenths = (number * 10.0).round() / 10.0;
    // No minus before zero.
    let tenths = if tenths == 0.0 { 0.0 } else { tenths };
    format!("{tenths}")
}

/// The data of an SVG path.
#[derive(Clone, Debug, Default)]
pub struct Data {
    pub text: String,
    last: Option<Point>,
}

impl Data {
    fn put(&mut self, letter: char, points: &[Point]) {
        self.text.push(letter);
        for (place, p) in points.iter().enumerate() {
            let space = if place > 0 { " " } else { "" };
            let _ = write!(self.text, "{space}{} {}", short(p.x), short(p.y));
        }
        self.last = points.last().copied();
    }

    /// Goes on to a point by a line; the first time, and after a gap, it starts there.
    pub fn to(&mut self, p: Point) {
        self.put(if self.last.is_some() { 'L' } else { 'M' }, &[p]);
    }

    /// The next point starts anew.
    pub fn gap(&mut self) {
        self.last = None;
    }

    pub fn curve(&mut self, curve: &Curve) {
        let [from, one, two, to] = curve.0;
        if self.last.is_none_or(|last| (last - from).length() > 0.05) {
            self.put('M', &[from]);
        }
        if from.y == to.y && one.y == from.y && two.y == from.y {
            self.put('L', &[to]);
        } else {
            self.put('C', &[one, two, to]);
        }
    }

    pub fn of(curves: &[Curve]) -> String {
        let mut data = Data::default();
        for curve in curves {
            data.curve(curve);
        }
        data.text
    }
}

/// How wide a text is at most, in any of the typefaces that the styles name.
pub fn text_width(text: &str, size: f64) -> f64 {
    let wide = |c: char| match c {
        'i' | 'l' | 'j' | '\'' | '|' | 'I' => 0.3,
        '.' | ',' | ':' | ';' | '!' | ' ' => 0.34,
        'f' | 't' | 'r' | '(' | ')' | '-' => 0.42,
        'm' | 'M' | 'W' => 0.98,
        'w' => 0.82,
        c if c.is_ascii_uppercase() => 0.78,
        c if c.is_ascii() => 0.64,
        _ => 1.0,
    };
    text.chars().map(wide).sum::<f64>() * size
}

/// How much wider texts are in bold type, of DejaVu Sans, where that makes the most.
pub const BOLD: f64 = 1.12;

/// The same in bold type.
pub fn bold_width(text: &str, size: f64) -> f64 {
    text_width(text, size) * BOLD
}

/// A text in lines that are not wider than some width.
pub fn broken(text: &str, size: f64, width: f64) -> Vec<String> {
    let mut lines = vec![String::new()];
    for word in text.split(' ') {
        let Some(line) = lines.last_mut() else { break };
        let longer = if line.is_empty() { String::from(word) } else { format!("{line} {word}") };
        if line.is_empty() || text_width(&longer, size) <= width {
            *line = longer;
        } else {
            lines.push(String::from(word));
        }
    }
    lines
}

#[cfg(test)]
mod tests {
    use super::*;
    use crate::layout::curve::point;

    #[test]
    fn what_means_something_is_escaped() {
        assert_eq!(escaped("a<b>&\"'\u{1b}\u{ffff}"), "a&lt;b&gt;&amp;&quot;&#39;\u{fffd}\u{fffd}");
    }

    #[test]
    fn numbers_are_short() {
        assert_eq!(short(1.0), "1");
        assert_eq!(short(-0.04), "0");
        assert_eq!(short(12.345), "12.3");
    }

    #[test]
    fn curves_in_a_row_are_one_path() {
        let (a, b, c) = (point(0.0, 0.0), point(10.0, 0.0), point(20.0, 5.0));
        assert_eq!(Data::of(&[Curve::level(a, b), Curve::level(b, c)]), "M0 0L10 0C15 0 15 5 20 5");
        assert_eq!(Data::of(&[Curve::level(a, b), Curve::level(c, c)]), "M0 0L10 0M20 5L20 5");
    }

    #[test]
    fn texts_are_broken_between_words() {
        assert_eq!(broken("aaa bbb ccc", 10.0, 45.0), ["aaa bbb", "ccc"]);
        assert_eq!(broken("", 10.0, 40.0), [""]);
    }
}
