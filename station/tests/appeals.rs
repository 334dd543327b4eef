//! Appeals: a candidate's setting and drawing, marked by the library and drawn beside the judge's.

use crate::common;

use common::{Tag, compare, groups, station, told, xml};
use judge::{Section, State, Train};
use oracle::generate;
use oracle::random::Random;
use station::appeal::Marked;
use station::args::{Drawing, Look, Shown};
use station::ask::{self, Answer};
use station::model::Station;
use station::page::{self, Entry};
use station::picture::paths::Paths;
use station::{DONE, NOT_RIGHT};

/// Appeals with the candidate's own setting and paths, as they are typed.
const APPEALS: [&[&str]; 8] = [
    &["--setting", "1111", "--drawing", "1:1,2,3", "2:9,7", "stations/K6.txt"],
    &["--setting", "1111", "--drawing", "1:1,2,3,5", "2:4,5", "stations/K6.txt"],
    &["--setting", "1211", "--drawing", "1:3,5,1", "2:1,2,3", "stations/K6.txt"],
    &["--setting", "1121", "--drawing", "1:1,2,3,5", "2:4,5", "stations/K6.txt"],
    &["--setting", "11111", "--drawing", "1:1,2,3,5", "2:4,5", "stations/points-open.txt"],
    &["--setting", "1111", "--drawing", "1:4,2,1", "2:4,5", "stations/U3.txt"],
    &["--setting", "1112", "stations/K6.txt"],
    &["--drawing", "1:1,2,4,5", "2:4,5", "stations/K.txt"],
];

#[test]
fn explain_marks_a_drawing_under_its_setting() {
    let mut text = String::new();
    for arguments in APPEALS {
        let (out, err, status) = told(&station(&[&["explain"], arguments].concat()));
        assert_eq!(err, "");
        let start = ["\nThe setting 1", "\nThe drawing"].iter().filter_map(|start| out.find(start)).min().expect("what was asked for");
        text += &format!("$ station explain {}\n..{}status {status}\n\n", arguments.join(" "), &out[start..]);
    }
    compare("station/tests/stored/appeals.txt", &text);
}

fn count(tags: &[Tag], name: &str) -> usize {
    tags.iter().filter(|tag| tag.name == name).count()
}

#[test]
fn the_page_for_examiners_has_these_pictures() {
    for (arguments, picture, ended) in [
        (&["--setting", "1111", "--drawing", "1:1,2,4,5", "2:4,5", "stations/K6.txt"][..], "station-appeal", 3),
        (&["--what-if", "stations/K6.txt"], "station-kept", 0),
    ] {
        let (out, err, status) = told(&station(&[&["draw"], arguments].concat()));
        assert_eq!((err.as_str(), status), ("", ended));
        compare(&format!("docs/{picture}.svg"), &out);
    }
}

#[test]
fn a_page_has_the_candidate_s_beside_the_judge_s() {
    for arguments in APPEALS {
        let (page, err, status) = told(&station(&[&["page"], arguments].concat()));
        assert_eq!(err, "", "{arguments:?}");
        for command in ["explain", "draw"] {
            assert_eq!(told(&station(&[&[command], arguments].concat())).2, status, "{command} {arguments:?}");
        }
        let tags = xml(&page).unwrap_or_else(|failure| panic!("{arguments:?}: {failure}"));
        // The drawing, the verdict on the same states, and the judge's setting where it is another one.
        let same = arguments.contains(&"1112") || arguments.contains(&"11111");
        let pictures = usize::from(arguments.contains(&"--drawing")) + 1 + usize::from(!same && arguments.contains(&"--setting"));
        assert_eq!((count(&tags, "svg"), count(&tags, "figcaption")), (pictures, pictures), "{arguments:?}");
        for words in [("--setting", "The candidate&#39;s setting"), ("--drawing", "The candidate&#39;s. The drawing")] {
            assert_eq!(page.contains(words.1), arguments.contains(&words.0), "{arguments:?}: {words:?}");
        }
        assert!(page.contains("The judge&#39;s verdict"), "{arguments:?}");
        assert!(!page.contains("marked not right too"), "{arguments:?}");
    }
}

#[test]
fn what_an_appeal_may_ask() {
    for arguments in [
        &["page", "--drawing", "1:1", "2:4", "stations/K.txt", "stations/K2.txt"][..],
        &["page", "--setting", "1111", "stations/K6.txt", "stations/K6.txt"],
        &["page", "--filed", "stations/K6.txt"],
        &["draw", "--filed", "--drawing", "1:1", "2:4", "stations/K6.txt"],
    ] {
        let (out, err, status) = told(&station(arguments));
        assert_eq!((out.as_str(), status), ("", 2), "{arguments:?}");
        assert!(err.starts_with("station: "), "{err}");
    }
    // While an element is open, a drawing is refused with 10; a train that is not there with 12; a setting has a state for each open element.
    for (arguments, wanted, status) in [
        (&["--drawing", "1:1", "2:4", "stations/K6.txt"][..], "refusal 10, line 3", 1),
        (&["--setting", "1111", "--drawing", "1:1", "3:4", "stations/K6.txt"], "refusal 12", 1),
        (&["--setting", "111", "--drawing", "1:1", "2:4", "stations/K6.txt"], "3 states are given, and the file has 4 open elements", 2),
    ] {
        let (out, err, ended) = told(&station(&[&["draw"], arguments].concat()));
        assert_eq!((out.as_str(), ended), ("", status), "{arguments:?}");
        assert!(err.contains(wanted), "{err}");
        let (page, err, ended) = told(&station(&[&["page"], arguments].concat()));
        assert_eq!(ended, status, "{arguments:?}");
        if status == 1 {
            xml(&page).unwrap_or_else(|failure| panic!("{arguments:?}: {failure}"));
        } else {
            assert!(page.is_empty() && err.contains(wanted), "{err}");
        }
    }
}

/// A drawing that may be right, half right or wrong, and its setting.
fn appeal(random: &mut Random, station: &Station) -> (Vec<State>, Drawing) {
    let open = station.open().len();
    let states: Vec<State> = (0..open).map(|_| random.pick(&[State::One, State::Two])).collect();
    let setting = station::questions::setting_of(station, &states).expect("a state for each");
    let trains = station.filed.trains.len() as u32;
    let mut named = [0; 2].map(|_: u16| random.between(1, trains) as u16);
    let mut paths = [0, 0].map(|_: u16| {
        let length = random.between(0, 5);
        (0..length).map(|_| random.between(0, u32::from(station.filed.sections) + 1) as u16).collect::<Vec<_>>()
    });
    let judged = ask::verdict_under(station, &setting).expect("a verdict");
    if let Some(danger) = judged.danger.filter(|_| !random.once_in(3)) {
        named = danger.trains.map(|train| train as u16);
        paths = danger.paths.map(|path| path.iter().map(|section| section.get()).collect());
        if random.once_in(2) {
            let place = random.place(paths[0].len());
            paths[0][place] = random.between(1, u32::from(station.filed.sections)) as u16;
        }
    }
    (states, Drawing { trains: named, paths })
}

/// Drawings of generated files under a setting: the mark is the library's for the file with those states, something is crossed exactly where a step or a start
/// is not permitted, and the page is well-formed.
#[test]
fn drawings_of_generated_files_are_marked_and_drawn() {
    let mut outcomes = [0; 3];
    for index in 0..350 {
        let file = generate::case(index).file;
        let answer = ask::answer(&file);
        let Some(filed) = answer.station().filter(|station| !station.filed.trains.is_empty()) else { continue };
        let mut random = Random::new(index);
        let (states, drawing) = appeal(&mut random, filed);
        let setting = station::questions::setting_of(filed, &states).expect("a setting");
        let under = filed.under(&setting);
        let marked = Marked::new(&under.file().expect("a file"), &under, &drawing).expect("the trains are there");
        let mut situation = filed.filed.clone();
        situation.elements.iter_mut().zip(&setting).for_each(|(element, &state)| *element.state_mut() = state);
        let [one, two] = drawing.paths.clone().map(|path| path.into_iter().map(Section).collect::<Vec<_>>());
        let right =
            judge::drawing(&judge::to_bytes(&situation).expect("a file"), Train(drawing.trains[0]), Train(drawing.trains[1]), &one, &two);
        assert_eq!(Ok(marked.right), right, "file {index}");
        outcomes[usize::from(marked.right)] += 1;
        let paths = Paths::of_drawing(&marked);
        let wrong: usize = paths.courses.iter().map(|course| course.wrong.len()).sum();
        assert!(!(marked.right && wrong > 0), "file {index}");
        let shown = if states.is_empty() { Shown::Chosen } else { Shown::Setting(states) };
        let look = Look { shown, drawing: Some(drawing), what_if: index % 3 == 0 };
        let (entry, status) = Entry::new("file", 1, &answer, &file, &look, None).expect("a state for each");
        assert_eq!(status, if marked.right { DONE } else { NOT_RIGHT }, "file {index}");
        let tags = xml(&page::page(&[entry])).unwrap_or_else(|failure| panic!("file {index}: {failure}"));
        // What is wrong outside of the station has no place in the picture; the legend has a cross of its own.
        let crosses = groups(&tags, "cross");
        let shown = paths.courses.iter().any(station::picture::paths::Course::has_cross);
        assert!(crosses <= wrong + 1 && (crosses > 1) == shown, "file {index}: {crosses} crosses of {wrong}");
        outcomes[2] += usize::from(shown);
    }
    assert!(outcomes.iter().all(|&outcome| outcome > 10), "{outcomes:?}");
}

/// The judge's own paths are always marked right, under any setting.
#[test]
fn the_judge_s_own_paths_are_right() {
    let mut seen = 0;
    for index in 0..1_500 {
        let answer = ask::answer(&generate::case(index).file);
        let Answer::Judged(station, judged) = &answer else { continue };
        if let Some(danger) = &judged.danger {
            assert!(Marked::of_danger(station, danger).expect("a mark").right, "file {index}");
            seen += 1;
        }
    }
    assert!(seen > 100, "{seen}");
    let (out, _, _) = told(&station(&["page", "--drawing", "1:1", "2:4", "stations/K.txt"]));
    assert!(out.contains("As a drawing, the judge&#39;s own two paths are marked right too."));
}
