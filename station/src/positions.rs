//! A college's own positions: a file beside the station, with a line for each section.

use std::ffi::OsStr;
use std::path::{Path, PathBuf};

use crate::layout::curve::{Point, point};
use crate::source;

/// The ending of such a file, in place of the station's: K.positions beside K.txt.
const ENDING: &str = "positions";

/// The file of the positions of a station, if it is there.
pub fn beside(station: &OsStr) -> Option<PathBuf> {
    if station == "-" {
        return None;
    }
    let path = Path::new(station).with_extension(ENDING);
    (path != Path::new(station) && path.is_file()).then_some(path)
}

/// The positions of a station beside whose file they are, of so many sections; what is wrong with them, in words.
pub fn of_station(station: &OsStr, sections: usize) -> Result<Option<Vec<Point>>, String> {
    let Some(path) = beside(station) else { return Ok(None) };
    let name = source::escaped(path.as_os_str());
    let bytes = source::read_path(&path).map_err(|error| format!("{name} cannot be read: {error}"))?;
    let text = std::str::from_utf8(&bytes).map_err(|_| format!("{name} is no text"))?;
    read(text, sections).map(Some).map_err(|wrong| format!("{name}: {wrong}"))
}

/// Reads lines with a section, x and y: x grows to the right, y downwards, in any unit. Empty lines, and lines that begin with #, are left out.
pub fn read(text: &str, sections: usize) -> Result<Vec<Point>, String> {
    let mut found: Vec<Option<(Point, usize)>> = vec![None; sections];
    for (place, line) in text.lines().enumerate() {
        let line = line.trim().trim_start_matches('\u{feff}');
        if line.is_empty() || line.starts_with('#') {
            continue;
        }
        let number = place + 1;
        let words: Vec<&str> = line.split([' ', '\t', ',', ';']).filter(|word| !word.is_empty()).collect();
        let [section, x, y] = words[..] else {
            return Err(format!("line {number} has {} fields in place of section, x and y", words.len()));
        };
        let section: usize = section.parse().map_err(|_| format!("line {number}: {section} is no section"))?;
        let [x, y] = [coordinate(x, number)?, coordinate(y, number)?];
        let Some(entry) = section.checked_sub(1).and_then(|place| found.get_mut(place)) else {
            return Err(format!("line {number}: the station has no section {section}"));
        };
        if let Some((_, before)) = entry {
            return Err(format!("line {number}: section {section} has a position in line {before} already"));
        }
        *entry = Some((point(x, y), number));
    }
    let missing = found.iter().position(Option::is_none);
    if let Some(place) = missing {
        return Err(format!("section {} has no position", place + 1));
    }
    let positions: Vec<Point> = found.into_iter().flatten().map(|(at, _)| at).collect();
    let mut order: Vec<usize> = (0..sections).collect();
    order.sort_by(|&one, &two| {
        let key = |section: usize| (positions[section].x, positions[section].y);
        key(one).partial_cmp(&key(two)).unwrap_or(std::cmp::Ordering::Equal).then(one.cmp(&two))
    });
    match order.windows(2).find(|pair| positions[pair[0]] == positions[pair[1]]) {
        Some(pair) => Err(format!("sections {} and {} have the same position", pair[0] + 1, pair[1] + 1)),
        None => Ok(positions),
    }
}

/// A number with or without a point; none so large that a difference would be lost.
fn coordinate(text: &str, line: usize) -> Result<f64, String> {
    let plain = text.chars().all(|c| c.is_ascii_digit() || "+-.".contains(c));
    text.parse()
        .ok()
        .filter(|number: &f64| plain && number.abs() <= 1e9)
        .ok_or_else(|| format!("line {line}: {text} is no number up to 1000000000"))
}

#[cfg(test)]
mod tests {
    use super::*;

    #[test]
    fn positions_are_read_in_any_order() {
        let read = read("# the plan of 1987\n2 1.5 -3\n\n1\t0,0\n", 2);
        assert_eq!(read, Ok(vec![point(0.0, 0.0), point(1.5, -3.0)]));
    }

    #[test]
    fn what_is_wrong_is_told() {
        for (text, wrong) in [
            ("1 0", "line 1 has 2 fields in place of section, x and y"),
            ("1 0 0\n2 0 0 0", "line 2 has 4 fields in place of section, x and y"),
            ("one 0 0", "line 1: one is no section"),
            ("1 0 0\n3 0 1", "line 2: the station has no section 3"),
            ("0 0 0", "line 1: the station has no section 0"),
            ("1 0 nan", "line 1: nan is no number up to 1000000000"),
            ("1 0 1e5", "line 1: 1e5 is no number up to 1000000000"),
            ("1 0 0\n1 1 1\n2 2 2", "line 2: section 1 has a position in line 1 already"),
            ("1 0 0", "section 2 has no position"),
            ("1 0 0\n2 0.0 -0", "sections 1 and 2 have the same position"),
        ] {
            assert_eq!(read(text, 2), Err(String::from(wrong)), "{text}");
        }
    }
}
