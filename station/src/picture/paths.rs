//! The two paths that a picture shows: of two trains that meet, or as a candidate drew them.

use judge::Section;

use crate::appeal::Marked;
use crate::ask::Danger;
use crate::layout::graph::place;
use crate::model::{Station, in_a_row};

/// Two paths, called A and B.
#[derive(Clone, Debug, PartialEq, Eq)]
pub struct Paths {
    pub courses: [Course; 2],
    /// The sections where they end, with what is said there.
    pub ends: Vec<End>,
    /// A candidate drew them.
    pub drawn: bool,
}

/// A path of a train.
#[derive(Clone, Debug, PartialEq, Eq)]
pub struct Course {
    pub letter: char,
    pub train: usize,
    pub words: String,
    /// Counted from 0; none where the station has no such section.
    pub stops: Vec<Option<usize>>,
    /// What is not permitted, by the place of the section that it leads to: 0 is the start.
    pub wrong: Vec<(usize, String)>,
}

/// The end of one of the paths, or of both.
#[derive(Clone, Debug, PartialEq, Eq)]
pub struct End {
    pub section: usize,
    pub words: &'static str,
    pub title: String,
    /// The trains meet there.
    pub meeting: bool,
}

const MEET: &str = "A and B meet here";

impl Course {
    fn new(letter: char, train: usize, path: &[Section], station: &Station) -> Course {
        let known = |section: &Section| section.place().filter(|&place| place < station.sections());
        Course { letter, train, words: in_a_row(path), stops: path.iter().map(known).collect(), wrong: vec![] }
    }

    /// "A", or "A as drawn"
    pub fn name(&self, drawn: bool) -> String {
        format!("{}{}", self.letter.to_ascii_uppercase(), if drawn { " as drawn" } else { "" })
    }

    /// Why the step to a place, or the start, is not permitted.
    pub fn fault(&self, place: usize) -> Option<&str> {
        self.wrong.iter().find(|(wrong, _)| *wrong == place).map(|(_, why)| why.as_str())
    }

    /// Whether something that is not permitted stands somewhere in the picture.
    pub fn has_cross(&self) -> bool {
        let known = |place: usize| self.stops.get(place).copied().flatten().is_some();
        self.wrong.iter().any(|&(place, _)| known(place) || place > 0 && known(place - 1))
    }

    /// The steps, as the place of the section that each leads to, and its two sections.
    pub fn steps(&self) -> impl Iterator<Item = (usize, [Option<usize>; 2])> {
        self.stops.windows(2).enumerate().map(|(place, pair)| (place + 1, [pair[0], pair[1]]))
    }
}

impl Paths {
    /// The judge's two paths.
    pub fn of_danger(station: &Station, danger: &Danger) -> Paths {
        let course = |letter: char, which: usize| Course::new(letter, danger.trains[which], &danger.paths[which], station);
        let end = End { section: place(danger.meeting), words: MEET, title: danger.words(), meeting: true };
        Paths { courses: [course('a', 0), course('b', 1)], ends: vec![end], drawn: false }
    }

    /// What a candidate drew, with what is wrong in it.
    pub fn of_drawing(marked: &Marked) -> Paths {
        let station = &marked.station;
        let course = |letter: char, which: usize| Course {
            wrong: marked.wrong(which),
            ..Course::new(letter, usize::from(marked.trains[which]), &marked.paths[which], station)
        };
        let courses = [course('a', 0), course('b', 1)];
        let last = [&courses[0], &courses[1]].map(|course| course.stops.last().copied().flatten());
        let end = |section: usize, words: &'static str, meeting: bool| End { section, words, title: String::from(words), meeting };
        let ends = match last {
            [Some(one), Some(two)] if one == two => {
                vec![end(one, if marked.right { MEET } else { "A and B end here" }, marked.right)]
            }
            _ => last.into_iter().zip(["A ends here", "B ends here"]).filter_map(|(at, words)| Some(end(at?, words, false))).collect(),
        };
        Paths { courses, ends, drawn: true }
    }

    /// The sections of both, with repetitions.
    pub fn sections(&self) -> impl Iterator<Item = usize> {
        self.courses.iter().flat_map(|course| course.stops.iter().copied().flatten())
    }
}
