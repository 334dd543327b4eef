//! A college's own positions: taken by draw and page where they stand beside the station, told where they are wrong.

use crate::common;

use std::path::PathBuf;

use common::{read, station, told, xml};

/// A folder of its own with station K in it.
fn folder(name: &str, positions: &str) -> PathBuf {
    let folder = std::env::temp_dir().join(format!("station-positions-{}-{name}", std::process::id()));
    std::fs::create_dir_all(&folder).expect("a folder");
    std::fs::write(folder.join("K.txt"), read("stations/K.txt")).expect("the station can be written");
    std::fs::write(folder.join("K.positions"), positions).expect("the positions can be written");
    folder
}

/// What a command says of the station in a folder; the folder is taken away.
fn said(command: &str, name: &str, positions: &str) -> (String, String, i32) {
    let folder = folder(name, positions);
    let path = folder.join("K.txt");
    let answer = told(&station(&[command, path.to_str().expect("a name")]));
    std::fs::remove_dir_all(&folder).expect("the folder can be taken away");
    answer
}

/// Left end and height of each section.
fn places(picture: &str) -> Vec<(f64, f64)> {
    let body = picture.split_once("<g transform").map_or("", |(_, body)| body);
    let sections = body.split("<g class=\"section\">").skip(1);
    let data = sections.map(|section| section.split("d=\"M").nth(1).unwrap_or(""));
    data.map(|data| {
        let mut numbers = data.split([' ', 'H']).map(|number| number.parse().expect("a number"));
        (numbers.next().expect("x"), numbers.next().expect("y"))
    })
    .collect()
}

/// Sections 1, 2, 3 and 5 in a row, 4 above 3.
const ABOVE: &str = "# K as the college has it\n1 0 0\n2 10 0\n3 20 0\n4 20 -5\n5 30 0\n";

#[test]
fn draw_and_page_take_the_positions() {
    for command in ["draw", "page"] {
        let (picture, err, status) = said(command, command, ABOVE);
        assert_eq!((err.as_str(), status), ("", 0));
        assert!(xml(&picture).is_ok());
        let at = places(&picture);
        assert!(at[0].1 == at[1].1 && at[1].1 == at[2].1 && at[2].1 == at[4].1, "{at:?}");
        assert!(at[3].1 < at[2].1 && at[0].0 < at[1].0 && at[1].0 < at[2].0 && at[2].0 < at[4].0, "{at:?}");
        // By itself the program puts section 4 below.
        let own = places(&told(&station(&[command, "stations/K.txt"])).0);
        assert!(own[3].1 > own[2].1, "{own:?}");
    }
}

#[test]
fn positions_change_no_answer() {
    let (words, err, status) = said("explain", "explain", ABOVE);
    assert_eq!((err.as_str(), status), ("", 0));
    assert!(words.contains("Dangerous: trains 1 and 2 can both come to section 5."));
    // What is wrong with them is no concern of a command without a picture.
    let (key, err, status) = said("key", "key", "1 0");
    assert_eq!((key.as_bytes(), err.as_str(), status), (&read("stations/K.key")[..], "", 0));
}

#[test]
fn wrong_positions_are_told_and_the_picture_drawn_without_them() {
    for (number, (positions, wrong)) in
        [("1 0 0\n", "section 2 has no position"), ("1 0 0\n6 1 1\n", "line 2: the station has no section 6")].into_iter().enumerate()
    {
        for command in ["draw", "page"] {
            let (picture, err, status) = said(command, &format!("{command}{number}"), positions);
            assert!(err.starts_with("station: ") && err.contains("K.positions") && err.contains(wrong), "{err}");
            assert_eq!(status, 1);
            assert_eq!(places(&picture), places(&told(&station(&[command, "stations/K.txt"])).0));
        }
    }
}
