//! The picture of a walk through all settings: everything once, the open elements in both states, each path in steps. A frame shows what it needs of it.
//!
//! The states are shown by the properties `--e2s1` and `--e2s2` of a picture: `inline` or `none` for element 2 in states 1 and 2. A path's step has
//! the name a-1-2, its first letter a-1 (a-1-both where path B starts there too), the section where the trains meet the name m-5.
//! What has a name is of the class by which a picture is styled, which goes with it where it is shown by `use`.

use std::collections::{BTreeMap, BTreeSet};
use std::fmt::Write;

use super::markup::{escaped, short};
use super::paths::{Course, End};
use super::trains::{badge, badge_shift};
use super::{HATCH, MARGIN, NARROWEST, Picture, Sheet};
use crate::layout::curve::point;

/// The parts of which the frames are put together.
pub struct Parts {
    pub width: String,
    pub height: String,
    /// Where the picture stands: the value of an attribute `transform`.
    pub moved: String,
    /// The marks of the paths by name.
    pub marks: String,
    /// What lies lowest, the tracks and sections, and what stands over the paths.
    pub layers: [String; 3],
    /// A picture of its own, which has the hatching too: paper shows it, and not the stage.
    pub legend: String,
}

impl Picture<'_> {
    /// The parts of a walk.
    pub fn parts(&self) -> Parts {
        let sheet = self.sheet();
        let width = sheet.layout.width.max(NARROWEST);
        let (legend, bottom) = sheet.legend().draw(MARGIN, 0.0, width);
        let (w, bottom) = (short((width + 2.0 * MARGIN).ceil()), short(bottom + 8.0));
        Parts {
            height: short((sheet.layout.height + 44.0).ceil()),
            moved: format!("translate({} 22)", short(MARGIN)),
            marks: sheet.marks(),
            legend: format!(
                "<svg xmlns=\"http://www.w3.org/2000/svg\" class=\"station-picture\" role=\"img\" aria-label=\"Legend\" width=\"{w}\" height=\"{bottom}\" viewBox=\"0 0 {w} {bottom}\">\n<defs>{HATCH}</defs>\n{legend}</svg>\n"
            ),
            width: short((sheet.layout.width + 2.0 * MARGIN).ceil()),
            layers: [sheet.ground, sheet.lines, sheet.above],
        }
    }
}

impl Sheet<'_> {
    /// Everything that a frame may show of its paths, by name.
    fn marks(&self) -> String {
        let walk = self.picture.walk.unwrap_or_default();
        let mut marks = String::new();
        let ends: BTreeMap<usize, _> = walk.iter().flat_map(|paths| &paths.ends).map(|end| (end.section, end)).collect();
        for (section, end) in ends {
            let end = End { title: format!("the two trains can both come to section {}", section + 1), ..end.clone() };
            let _ = writeln!(marks, "<g id=\"m-{}\" class=\"station-picture\">{}</g>", section + 1, self.end(&end));
        }
        let mut steps = BTreeSet::new();
        let mut starts = BTreeSet::new();
        for paths in walk {
            let both = start(&paths.courses[0]) == start(&paths.courses[1]);
            for course in &paths.courses {
                starts.extend(start(course).map(|start| (course.letter, start, both)));
                steps.extend(course.steps().filter_map(|(_, [from, to])| Some((course.letter, from?, to?))));
            }
        }
        for (letter, from, to) in steps {
            let course = Course { letter, train: 0, words: String::new(), stops: vec![Some(from), Some(to)], wrong: vec![] };
            let line = self.line(&course);
            let _ = writeln!(
                marks,
                "<g id=\"{letter}-{}-{}\" class=\"station-picture\"><path class=\"path-{letter}\" d=\"{}\"/>{}</g>",
                from + 1,
                to + 1,
                line.right.text,
                line.tips
            );
        }
        for (letter, start, both) in starts {
            let shift = if both { badge_shift(letter) } else { 0.0 };
            let name = if both { "-both" } else { "" };
            let at = self.middle(start) + point(shift, 12.0);
            let _ = writeln!(marks, "<g id=\"{letter}-{}{name}\" class=\"station-picture\">{}</g>", start + 1, badge(letter, at));
        }
        marks
    }
}

fn start(course: &Course) -> Option<usize> {
    course.stops.first().copied().flatten()
}

impl Parts {
    /// A picture in which a script shows the frames, with the properties of one of them.
    pub fn stage(&self, name: &str, properties: &str) -> String {
        let Parts { width, height, moved, marks, layers: [ground, lines, above], .. } = self;
        format!(
            "<svg xmlns=\"http://www.w3.org/2000/svg\" id=\"stage\" class=\"station-picture\" role=\"img\" aria-label=\"{}\" width=\"{width}\" height=\"{height}\" viewBox=\"0 0 {width} {height}\" style=\"{properties}\">\n<defs>\n{marks}</defs>\n<rect width=\"{width}\" height=\"{height}\" fill=\"#fff\"/>\n<g id=\"moved\" transform=\"{moved}\">\n<g id=\"ground\" class=\"station-picture\">\n{ground}</g>\n<g id=\"meeting\"></g>\n<g id=\"lines\" class=\"station-picture\">\n{lines}</g>\n<g id=\"paths\"></g>\n<g id=\"above\" class=\"station-picture\">\n{above}</g>\n<g id=\"letters\"></g>\n</g>\n</svg>\n",
            escaped(name)
        )
    }
}
