//! The opening question of a paper (02, Item 6): shown as what it is by every command, with a setting that the library calls safe.

use crate::common;

use common::{compare, station_with, told, xml};
use judge::{ElementLine, State};
use oracle::generate;
use station::ask::{self, Answer};
use station::model::Station;
use station::opening;
use station::register::Finding;

/// A line of a station file.
fn line(letter: char, fields: &[usize]) -> String {
    let mut line = String::from(letter);
    (0..4).for_each(|place| line += &fields.get(place).map_or(String::from("     "), |field| format!("{field:>5}")));
    line + "\n"
}

/// A row of 21 sections with a signal each way between two of them, 40 signals in all and every one open, and three open turnouts behind it. The trains stand
/// in the sections that are named.
fn paper(trains: &[usize]) -> Vec<u8> {
    let mut text = line('S', &[26, 0, 43, trains.len()]);
    for section in 1..=20 {
        text += &line('L', &[section, section + 1, 0]);
        text += &line('L', &[section + 1, section, 0]);
    }
    for turnout in [[21, 22, 23, 0], [24, 22, 25, 0], [26, 23, 25, 0]] {
        text += &line('D', &turnout);
    }
    trains.iter().for_each(|&section| text += &line('T', &[section]));
    text.into_bytes()
}

const YES: [usize; 5] = [1, 11, 21, 24, 26];
const NO: [usize; 3] = [1, 11, 11];

#[test]
fn an_opening_paper_is_no_refusal() {
    let mut text = String::new();
    for trains in [&YES[..], &NO] {
        let file = paper(trains);
        for arguments in [&["explain", "-"][..], &["explain", "--can-be-safe", "--what-if", "-"]] {
            let (out, err, status) = told(&station_with(arguments, &file));
            assert_eq!((err.as_str(), status), ("", 0));
            text += &format!("$ station {}\n{out}\n", arguments.join(" "));
        }
        for command in ["draw", "page"] {
            let (out, err, status) = told(&station_with(&[command, "-"], &file));
            assert_eq!((err.as_str(), status), ("", 0), "{command}");
            xml(&out).unwrap_or_else(|failure| panic!("{command}: {failure}"));
            assert!(out.contains(if trains == YES { "an be made safe: yes" } else { "an be made safe: no" }), "{command}");
        }
        // The key is the library's, and refuses.
        let (key, _, status) = told(&station_with(&["key", "-"], &file));
        assert_eq!((key.as_str(), status), ("R   11   14          \n", 1));
    }
    compare("station/tests/stored/opening.txt", &text);
}

#[test]
fn check_counts_it_as_what_it_is() {
    let finding = Finding::of(&paper(&YES));
    assert_eq!((finding.answer(), finding.verdict()), ("accepted", Some("can be safe")));
    let Finding::CanBeSafe { setting } = finding else { panic!("no setting") };
    let turnouts: Vec<(usize, State)> = setting.iter().copied().filter(|&(number, _)| number > 40).collect();
    assert_eq!(turnouts, [(41, State::One), (42, State::Two), (43, State::One)]);
    assert!(setting.iter().all(|&(number, state)| number > 40 || state == State::Two));
    assert_eq!(Finding::of(&paper(&NO)), Finding::CannotBeSafe);
    let folder = std::env::temp_dir().join(format!("station-opening-{}", std::process::id()));
    std::fs::create_dir_all(&folder).expect("a folder");
    for (name, trains) in [("a", &YES[..]), ("b", &NO), ("c", &NO)] {
        std::fs::write(folder.join(name), paper(trains)).expect("a file");
    }
    let (out, err, status) = told(&station_with(&["check", folder.to_str().expect("a name")], b""));
    std::fs::remove_dir_all(&folder).expect("the folder goes");
    assert_eq!((err.as_str(), status), ("", 0));
    let has = |start: &str, end: &str| out.lines().any(|line| line.starts_with(start) && line.contains(end));
    assert!(has("accepted ", " 3") && has("  with an opening question ", " 3 "), "{out}");
    assert!(has("    can be made safe: yes ", " 1") && has("    can be made safe: no ", " 2"), "{out}");
    assert!(has("refused ", " 0"), "{out}");
}

/// Generated stations with every signal open: the answer agrees with the settings question where that replies, the setting found is one that the library calls
/// safe, and where there is none each setting of the turnouts is dangerous.
#[test]
fn what_is_found_is_safe() {
    let mut outcomes = [0; 3];
    for index in 0..1_500 {
        let Ok(mut situation) = judge::read(&generate::case(index).file) else { continue };
        for element in &mut situation.elements {
            if let ElementLine::Signal { state, .. } = element {
                *state = State::Open;
            }
        }
        let file = judge::to_bytes(&situation).expect("a station");
        let station = Station::new(situation);
        let turnouts: Vec<usize> = station.open().into_iter().filter(|&number| station.filed.elements[number - 1].is_turnout()).collect();
        let Ok(found) = opening::answer(&file, &station) else {
            assert!(turnouts.len() > judge::MAX_OPEN, "file {index}");
            continue;
        };
        assert_eq!(found.is_some(), judge::can_be_safe(&file).expect("an answer"), "file {index}");
        if let Ok(best) = ask::settings(&file) {
            assert_eq!(found.is_some(), best.is_some(), "file {index}");
        } else {
            outcomes[2] += 1;
            assert!(matches!(ask::answer(&file), Answer::Opening(..)), "file {index}");
        }
        match &found {
            Some(found) => {
                outcomes[0] += 1;
                assert_eq!(ask::verdict_under(&station, &found.setting).expect("a verdict").danger, None, "file {index}");
                for number in station.open() {
                    let is_turnout = station.filed.elements[number - 1].is_turnout();
                    assert!(is_turnout || found.setting[number - 1] == State::Two, "file {index}");
                }
            }
            None if turnouts.len() <= 4 => {
                outcomes[1] += 1;
                for way in 0..1_usize << turnouts.len() {
                    let mut setting: Vec<State> =
                        station.states.iter().map(|&state| if state.is_open() { State::Two } else { state }).collect();
                    turnouts
                        .iter()
                        .enumerate()
                        .filter(|(place, _)| way >> place & 1 == 1)
                        .for_each(|(_, &number)| setting[number - 1] = State::One);
                    assert!(ask::verdict_under(&station, &setting).expect("a verdict").danger.is_some(), "file {index}");
                }
            }
            None => {}
        }
    }
    assert!(outcomes[0] > 100 && outcomes[1] > 20 && outcomes[2] > 20, "{outcomes:?}");
}
