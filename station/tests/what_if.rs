//! What must not be touched: each answer is that of the file with the element's other state.

use crate::common;

use common::{compare, station, station_with, told, xml};
use judge::State;
use oracle::generate;
use station::ask;
use station::model::{Station, other};
use station::what_if::WhatIf;

#[test]
fn explain_says_what_comes_of_each_other_state() {
    let mut text = String::new();
    for arguments in [
        &["stations/K.txt"][..],
        &["stations/K2.txt"],
        &["stations/K6.txt"],
        &["--setting", "1111", "stations/K6.txt"],
        &["stations/K8.txt"],
        &["stations/002-figure-7.txt"],
        &["stations/001-figure-3.txt"],
    ] {
        let (out, err, status) = told(&station(&[&["explain", "--what-if"], arguments].concat()));
        assert_eq!((err.as_str(), status), ("", 0));
        let after = out.split_once("What if an element is in its other state?").unwrap_or_else(|| panic!("{out}")).1;
        text += &format!("$ station explain --what-if {}\n..\nWhat if an element is in its other state?{after}\n", arguments.join(" "));
    }
    compare("station/tests/stored/what_if.txt", &text);
}

/// The byte of an element's state in a file of the old form.
fn state_byte(station: &Station, number: usize) -> usize {
    let field = if station.filed.elements[number - 1].is_turnout() { 4 } else { 3 };
    judge::LINE_SIZE * (station.element_line(number) - 1) + 5 * field
}

/// Each answer is the verdict of the file whose one byte says the other state, and the marked elements are those by which a safe station becomes dangerous.
#[test]
fn every_answer_is_the_library_s_of_the_file_with_that_state() {
    let (mut keeping, mut looked_at) = (0, 0);
    for index in 0..1_200 {
        let Ok(situation) = judge::read(&generate::case(index).file) else { continue };
        let filed = Station::new(situation);
        let states: Vec<State> = filed.states.iter().map(|&state| if state.is_open() { State::Two } else { state }).collect();
        let station = filed.under(&states);
        let file = station.file().expect("a file");
        let what_if = WhatIf::new(&station).expect("nothing is open");
        let safe = ask::verdict(&file).expect("a verdict").danger.is_none();
        let mut wanted = vec![];
        for number in 1..=states.len() {
            let mut changed = file.clone();
            changed[state_byte(&station, number)] = if other(states[number - 1]) == State::One { b'1' } else { b'2' };
            let judged = ask::verdict(&changed).expect("a verdict");
            assert_eq!(what_if.others[number - 1], judged, "file {index}, element {number}");
            wanted.extend((safe && judged.danger.is_some()).then_some(number));
            looked_at += 1;
        }
        assert_eq!(what_if.keeping(), wanted, "file {index}");
        keeping += wanted.len();
    }
    assert!(keeping > 50 && looked_at > 2_000, "{keeping} of {looked_at}");
}

/// The numbers behind which a lock stands: the labels of the groups that have one.
fn locked(picture: &str) -> Vec<String> {
    let body = picture.split_once("<g transform").map_or(picture, |(_, body)| body);
    let body = body.split("<g class=\"legend\">").next().unwrap_or_default();
    let groups = body.split("<g class=\"").filter(|group| group.contains("class=\"locked\""));
    groups
        .map(|group| String::from(group.split_once("<title>").and_then(|(_, title)| title.split(',').next()).unwrap_or_default()))
        .collect()
}

#[test]
fn the_picture_marks_those_that_keep_the_station_safe() {
    for (arguments, wanted) in [
        (&["stations/K6.txt"][..], &["signal 4", "turnout 2"][..]),
        (&["stations/K2.txt"], &["signal 4", "turnout 2"]),
        (&["stations/002-figure-7.txt"], &["turnout 8"]),
        (&["stations/K.txt"], &[]),
        (&["--setting", "1111", "stations/K6.txt"], &[]),
        (&["--setting", "2122", "stations/K6.txt"], &["turnout 2"]),
    ] {
        let (picture, err, status) = told(&station(&[&["draw", "--what-if"], arguments].concat()));
        assert_eq!((err.as_str(), status), ("", 0));
        xml(&picture).unwrap_or_else(|failure| panic!("{failure}"));
        assert_eq!(locked(&picture), wanted, "{arguments:?}");
        let legend = picture.contains("keeps the station safe: not to be touched");
        assert_eq!(legend, !wanted.is_empty(), "{arguments:?}");
        // Without the option nothing is marked.
        let (plain, _, _) = told(&station(&[&["draw"], arguments].concat()));
        assert!(locked(&plain).is_empty());
        let (page, _, status) = told(&station(&[&["page", "--what-if"], arguments].concat()));
        assert_eq!(status, 0);
        xml(&page).unwrap_or_else(|failure| panic!("{failure}"));
        assert!(page.contains("What if an element is in its other state?"));
    }
    let (picture, _, status) = told(&station(&["draw", "--what-if", "stations/K8.txt"]));
    assert_eq!(status, 0);
    assert!(locked(&picture).is_empty() && picture.contains("No safe setting is shown"), "{picture}");
    let (out, _, status) = told(&station_with(&["explain", "--what-if", "-"], b"S    1    0    0    0\n"));
    assert_eq!(status, 0);
    assert!(out.contains("The station has no element."), "{out}");
}
