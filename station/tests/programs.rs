//! What programs read: answers as JSON by docs/JSON.md, and in lines of 22 bytes.

use crate::common;

use common::{Json, compare, json, read, station, station_with, stations, told};

/// Everything that is written as JSON for the stored files, one object a line.
fn objects() -> String {
    let mut text = String::new();
    for (arguments, input, wanted) in [
        (
            &["explain", "--json", "stations/K.txt", "stations/K6.txt", "stations/K8.txt", "stations/points-twice.txt", "stations/U1.txt"]
                [..],
            &b""[..],
            1,
        ),
        (&["explain", "--json", "--drawing", "1:1,2,4,5", "2:4,5", "stations/K.txt"], b"", 3),
        (
            &["check", "--json", "-q", "stations/K.txt", "stations/K6.txt", "stations/K8.txt", "stations/points-twice.txt", "no-such-file"],
            b"",
            2,
        ),
        (&["routes", "--json", "stations/K.txt", "stations/K.routes"], b"", 0),
        (&["routes", "--json", "stations/K.txt", "-"], b"K    1               \n", 1),
        (&["answers", "--json", "station/tests/files/session.log"], b"", 0),
        (&["answers", "--json", "-"], b"C    1", 1),
        (&["report", "--json", "station/tests/files/session.marks"], b"", 0),
        (&["report", "--json", "-"], b"1 1 11 10\n", 1),
        (&["report", "--json", "-"], b"1 1 eleven 10\n", 1),
    ] {
        let (out, _, status) = told(&station_with(arguments, input));
        assert_eq!(status, wanted, "{arguments:?}");
        text += &out;
    }
    text
}

/// The form is kept: a field that goes, or is called otherwise, is another version.
#[test]
fn json_is_as_stored_and_as_described() {
    let text = objects();
    compare("station/tests/stored/answers.jsonl", &text);
    let page = String::from_utf8(read("docs/JSON.md")).expect("text");
    for line in text.lines() {
        let object = json(line);
        assert_eq!(object.field("version"), &Json::Number(1));
        for name in object.names() {
            assert!(page.contains(&format!("`{name}`")), "docs/JSON.md does not describe {name}");
        }
    }
    // What the page shows is what is printed.
    let (command, shown) = page.split("```").nth(1).and_then(|block| block.trim().split_once('\n')).expect("an example");
    let arguments: Vec<&str> = command.strip_prefix("$ station ").expect("a command").split(' ').collect();
    assert_eq!(told(&station(&arguments)).0.trim_end(), shown);
}

#[test]
fn json_of_a_station_is_the_library_s_answer() {
    for name in stations() {
        let file = read(&name);
        let (out, _, _) = told(&station(&["explain", "--json", &name]));
        let object = json(out.trim_end());
        let key = judge::key_text(&file);
        let paths: Vec<Vec<u64>> = ["A", "B"]
            .map(|letter| {
                let lines = key.lines().filter(|line| line.starts_with(letter));
                lines.map(|line| line.split_whitespace().nth(2).and_then(|section| section.parse().ok()).expect("a section")).collect()
            })
            .to_vec();
        match object.field("paths") {
            Json::Null => assert!(!key.contains('A'), "{name}"),
            listed => assert_eq!(listed.list().iter().map(Json::numbers).collect::<Vec<_>>(), paths, "{name}"),
        }
        match (judge::read(&file), object.field("station")) {
            (Ok(situation), station) => {
                let trains: Vec<Vec<u64>> =
                    situation.trains.iter().map(|sections| sections.iter().map(|section| u64::from(section.get())).collect()).collect();
                assert_eq!(station.field("trains").list().iter().map(Json::numbers).collect::<Vec<_>>(), trains, "{name}");
                assert_eq!(station.field("sections"), &Json::Number(situation.sections.into()), "{name}");
            }
            (Err(_), station) => assert_eq!(station, &Json::Null, "{name}"),
        }
        let (words, _, _) = told(&station(&["explain", &name]));
        assert_eq!(Some(object.field("words").field("summary").text()), words.lines().nth(1), "{name}");
    }
}

#[test]
fn json_of_routes_is_the_library_s_table() {
    let (out, _, _) = told(&station(&["routes", "--json", "stations/K.txt", "stations/K.routes"]));
    let object = json(out.trim_end());
    let pairs: Vec<Vec<u64>> = object.field("conflicts").list().iter().map(|conflict| conflict.field("routes").numbers()).collect();
    let table = String::from_utf8(read("stations/K.table")).expect("a table");
    let mut wanted = Vec::new();
    for (one, row) in table.lines().enumerate() {
        wanted.extend(
            row.bytes().enumerate().filter(|&(two, byte)| two > one && byte == b'1').map(|(two, _)| vec![one as u64 + 1, two as u64 + 1]),
        );
    }
    assert_eq!(pairs, wanted);
}

/// `answers` and `report` give the lines of the programs, and of the library's examples.
#[test]
fn lines_are_those_of_the_library() {
    let lines = |arguments: &[&str], input: &[u8]| {
        let (out, err, status) = told(&station_with(arguments, input));
        (out, err.is_empty(), status)
    };
    let stored = |name: &str| String::from_utf8(read(name)).expect("text");
    let report: String = stored("examples-c/report.stdout").split_inclusive('\n').take(3).collect();
    assert_eq!(lines(&["answers", "--lines", "-"], &read("crates/standing/stdin")), (stored("crates/standing/stdout"), true, 0));
    assert_eq!(lines(&["report", "--lines", "-"], b"700,2,10,10\n31,1,7,20\n700,1,0,20\n31,2,10,10\n31,2,1,10\n"), (report, true, 0));
    assert_eq!(lines(&["answers", "--lines", "-"], b"C    1"), (String::from("R   16    0          \n"), false, 1));
    assert_eq!(lines(&["report", "--lines", "-"], b"# marks\n1 1 1 1\n1 1 11 10\n"), (String::from("R   18    2          \n"), false, 1));
    assert_eq!(lines(&["report", "--lines", "-"], b"1 1 1\n"), (String::new(), false, 1));
}

#[test]
fn convert_is_the_two_programs() {
    for (program, letter) in [("to_s", "S"), ("to_u", "U")] {
        let (out, _, status) = told(&station_with(&["convert", "--to", letter, "-"], &read(&format!("crates/{program}/stdin"))));
        assert_eq!((out.into_bytes(), status), (read(&format!("crates/{program}/stdout")), 0));
    }
    let (out, err, status) = told(&station(&["convert", "--to=S", "stations/U2.txt"]));
    assert_eq!((out.as_str(), status), ("R   13    7          \n", 1));
    assert_eq!(err, "station: stations/U2.txt: refusal 13, line 7: a train in more than one section, which an S file cannot have\n");
    for name in stations() {
        let file = read(&name);
        let mut buffer = vec![0; file.len()];
        let (out, _, status) = told(&station(&["convert", "--to", "U", &name]));
        match judge::to_u(&file, &mut buffer) {
            Ok(converted) => assert_eq!((out.as_bytes(), status), (converted, 0), "{name}"),
            Err(_) => assert!(out.starts_with('R') && status == 1, "{name}"),
        }
    }
}

#[test]
fn place_draws_what_the_library_draws() {
    let place = |arguments: &[&str]| told(&station(&[&["place"], arguments].concat()));
    let (out, _, status) = place(&["--paper", "2026", "--sections", "12", "--trains", "12", "--lines"]);
    let sections: Vec<&str> = out.lines().map(|line| line[1..6].trim()).collect();
    assert_eq!((sections.join(" ").as_str(), status), ("8 3 11 6 2 9 4 12 7 5 10 1", 0));
    assert!(out.split_inclusive('\n').all(|line| line.len() == judge::LINE_SIZE && line.starts_with('T')));
    // They are T lines of a station file.
    let file = [b"S   12    0    0   12\n", out.as_bytes()].concat();
    assert_eq!(judge::read(&file).expect("a station").trains.len(), 12);
    let (out, err, status) = place(&["--paper=18446744073709551615", "--sections", "5", "--trains", "2"]);
    assert_eq!((err.as_str(), status), ("", 0));
    assert!(out.starts_with("paper 18446744073709551615\n2 trains in a station of 5 sections.\n\n  train  section\n"), "{out}");
    let (out, err, status) = place(&["--paper", "2026", "--sections", "12", "--trains", "13", "--lines"]);
    assert_eq!((out.as_str(), status), ("R   21    0          \n", 1));
    assert!(err.starts_with("station: paper 2026: refusal 21: "), "{err}");
    for wrong in [&["--paper", "18446744073709551616", "--sections", "5", "--trains", "2"][..], &["--paper", "1", "--sections", "5"]] {
        assert_eq!(place(wrong).2, 2);
    }
    let (out, _, status) = place(&["--paper", "1", "--sections", "70000", "--trains", "1"]);
    assert!(out.contains("Refusal 21") && status == 1, "{out}");
}
