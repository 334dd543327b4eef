//! Each command as it is called, beside its stored output on stations/.

use crate::common;

use std::process::Command;

use common::{compare, read, root, station, station_with, stations, told};
use station::commands::COMMANDS;

fn refs(names: &[String]) -> Vec<&str> {
    names.iter().map(String::as_str).collect()
}

#[test]
fn key_prints_the_stored_keys() {
    for name in stations() {
        let key = String::from_utf8(read(&name.replace(".txt", ".key"))).expect("a key");
        let (out, err, status) = told(&station(&["key", &name]));
        assert_eq!(out, key, "{name}");
        assert_eq!(err, "");
        assert_eq!(status, i32::from(key.starts_with('R')), "{name}");
    }
    let all = stations();
    let key = |name: &String| String::from_utf8(read(&name.replace(".txt", ".key"))).expect("a key");
    let keys: String = all.iter().map(|name| format!("==> {name} <==\n{}", key(name))).collect();
    let (out, _, status) = told(&station(&[&["key", "--names"], refs(&all).as_slice()].concat()));
    assert_eq!(out, keys);
    assert_eq!(status, 1);
    let (out, err, status) = told(&station(&["key", "stations/K.txt", "stations/K2.txt"]));
    assert_eq!((out.as_str(), status), ("", 2));
    assert!(err.contains("more than one file is given"), "{err}");
}

#[test]
fn key_says_the_subtractions() {
    for name in ["K", "K6"] {
        let (file, key) = (format!("stations/{name}.txt"), read(&format!("stations/{name}.key")));
        let (out, err, status) = told(&station(&["key", "--counts", &file]));
        let digits: u32 = key.iter().filter_map(|&byte| char::from(byte).to_digit(10)).sum();
        assert_eq!((out.into_bytes(), err, status), (key, format!("{file}: {digits} subtractions\n"), 0));
    }
}

#[test]
fn explain_prints_the_stored_words() {
    let all = stations();
    let (out, err, status) = told(&station(&[&["explain"], refs(&all).as_slice()].concat()));
    assert_eq!((err.as_str(), status), ("", 1));
    compare("station/tests/stored/explain.txt", &out);
}

#[test]
fn explain_answers_further_questions() {
    let mut text = String::new();
    for arguments in [
        &["--drawing", "1:1,2,3,5", "2:4,5", "stations/K.txt"][..],
        &["--drawing", "1:1,2,4,5", "2:3,5", "stations/K.txt"],
        &["--drawing", "2:4,5", "2:", "stations/K.txt"],
        &["--drawing", "1:1,2,3", "2:4,5", "stations/K.txt"],
        &["--drawing", "1:1,9", "3:4", "stations/K.txt"],
        &["--drawing", "1:1,2,9,0", "2:4,5", "stations/K.txt"],
        &["--drawing", "1:1", "2:4", "stations/K6.txt"],
        &["--drawing", "1:4,5", "2:5", "stations/U2.txt"],
        &["--drawing", "1:1,2,3,5", "2:4,2,3,5", "stations/points-stop.txt"],
        &["--can-be-safe", "stations/K6.txt", "stations/K8.txt", "stations/K.txt", "stations/K2.txt"],
        &["--frames", "all", "stations/K6.txt"],
        &["--frames", "15-17", "stations/K6.txt"],
        &["--frames", "0", "stations/K.txt"],
        &["--setting", "1111", "stations/K6.txt"],
        &["--setting", "2222", "stations/K6.txt"],
        &["--old-desks", "stations/U1.txt", "stations/K.txt"],
    ] {
        let (out, err, status) = told(&station(&[&["explain"], arguments].concat()));
        assert_eq!(err, "");
        text += &format!("$ station explain {}\n{out}status {status}\n\n", arguments.join(" "));
    }
    compare("station/tests/stored/questions.txt", &text);
}

#[test]
fn draw_prints_the_pictures_of_docs() {
    for (name, picture) in [("K", "station-K"), ("002-figure-8", "station-long-trains"), ("points-open", "station-points")] {
        let (out, err, status) = told(&station(&["draw", &format!("stations/{name}.txt")]));
        assert_eq!((err.as_str(), status), ("", 0));
        compare(&format!("docs/{picture}.svg"), &out);
    }
}

#[test]
fn draw_shows_settings_and_frames() {
    let drawn = |arguments: &[&str]| told(&station(&[&["draw"], arguments].concat()));
    let (chosen, _, _) = drawn(&["stations/K6.txt"]);
    let (same, _, _) = drawn(&["--setting", "1112", "stations/K6.txt"]);
    let (frame, _, _) = drawn(&["--frame", "1", "stations/K6.txt"]);
    let (dangerous, _, status) = drawn(&["--frame", "0", "stations/K6.txt"]);
    let (filed, _, _) = drawn(&["--filed", "stations/K6.txt"]);
    let body = |text: &str| String::from(text.split_once("<g transform").expect("a picture").1);
    assert_eq!(body(&chosen), body(&same));
    assert_eq!(body(&same), body(&frame));
    assert_eq!(status, 0);
    assert!(dangerous.contains("Frame 0: dangerous, trains 1 and 2 can both come to section 5."));
    assert!(dangerous.contains("class=\"path-a\"") && !same.contains("class=\"path-a\""));
    assert!(filed.contains("signal 1, open") && !chosen.contains("signal 1, open"));
    let (out, err, status) = drawn(&["--setting", "11", "stations/K6.txt"]);
    assert_eq!((out.as_str(), status), ("", 2));
    assert!(err.contains("--setting 11: 2 states are given, and the file has 4 open elements"), "{err}");
}

#[test]
fn there_is_no_picture_of_a_refused_file() {
    let (out, err, status) = told(&station(&["draw", "stations/points-twice.txt"]));
    assert_eq!((out.as_str(), status), ("", 1));
    assert!(err.contains("Refusal 8, line 7."));
}

#[test]
fn routes_answers_and_report_print_the_stored_tables() {
    let mut text = String::new();
    for arguments in [
        &["routes", "stations/K.txt", "stations/K.routes"][..],
        &["routes", "--why", "stations/K.txt", "stations/K.routes"],
        &["answers", "station/tests/files/session.log"],
        &["report", "station/tests/files/session.marks"],
    ] {
        let (out, err, status) = told(&station(arguments));
        assert_eq!((err.as_str(), status), ("", 0));
        text += &format!("$ station {}\n{out}\n", arguments.join(" "));
    }
    compare("station/tests/stored/tables.txt", &text);
}

/// The letters of the matrix are those of the stored table of conflicts.
#[test]
fn the_matrix_is_the_library_s_table() {
    let (out, _, _) = told(&station(&["routes", "stations/K.txt", "stations/K.routes"]));
    let table = String::from_utf8(read("stations/K.table")).expect("a table");
    for (number, row) in table.lines().enumerate() {
        let line = out.lines().rfind(|line| line.trim_start().starts_with(&format!("{}  ", number + 1))).expect("a row");
        let letters: String = line.split_whitespace().skip(1).map(|cell| if matches!(cell, "." | "-") { '0' } else { '1' }).collect();
        assert_eq!(letters, row);
    }
}

#[test]
fn check_counts_the_stations() {
    let (out, err, status) = told(&station(&["check", "--ending", ".txt", "stations"]));
    assert_eq!((err.as_str(), status), ("", 1));
    // Times are of the machine.
    let steady = |line: &str| match line {
        line if line.starts_with("stations: ") => line.split(" in ").next().map(|start| format!("{start} in ..")).unwrap_or_default(),
        line if line.starts_with("slowest: ") => String::from("slowest: .."),
        line => String::from(line),
    };
    let text: Vec<String> = out.lines().map(steady).collect();
    compare("station/tests/stored/check.txt", &(text.join("\n") + "\n"));
}

#[test]
fn the_standard_input_is_a_file_too() {
    let file = read("stations/K.txt");
    let (out, _, status) = told(&station_with(&["key", "-"], &file));
    assert_eq!((out.into_bytes(), status), (read("stations/K.key"), 0));
    let (out, _, status) = told(&station_with(&["explain"], b""));
    assert_eq!((out.as_str(), status), ("", 2));
    let (out, _, status) = told(&station_with(&["explain", "-"], b""));
    assert_eq!(status, 1);
    assert!(out.starts_with("standard input\nRefusal 1, it belongs to no line.\n"));
    let (out, _, status) = told(&station_with(&["routes", "stations/K.txt", "-"], &read("stations/K.routes")));
    assert!(out.starts_with("standard input in stations/K.txt\n4 routes"));
    assert_eq!(status, 0);
}

#[test]
fn wrong_use_has_status_2() {
    for arguments in [
        &[][..],
        &["keys"],
        &["key"],
        &["key", "no-such-file"],
        &["explain", "stations"],
        &["check", "no-such-folder"],
        &["draw", "stations/K.txt", "stations/K2.txt"],
        &["explain", "--frames", "x", "stations/K.txt"],
    ] {
        let (out, err, status) = told(&station(arguments));
        assert_eq!((out.as_str(), status), ("", 2), "{arguments:?}");
        assert!(err.starts_with("station: "), "{err}");
    }
    // A file that can be read is answered all the same.
    let (out, err, status) = told(&station(&["key", "--names", "no-such-file", "stations/K.txt"]));
    assert_eq!((out.as_bytes(), status), ([b"==> stations/K.txt <==\n", read("stations/K.key").as_slice()].concat().as_slice(), 2));
    assert!(err.contains("no-such-file"));
}

/// A refused file, wrong use and a drawing that is not right have a status each; of several the worst one stays.
#[test]
fn each_status_says_what_help_says() {
    let (overview, _, _) = told(&station(&["--help"]));
    let right = ["--drawing", "1:1,2,3,5", "2:4,5"];
    let wrong = ["--drawing", "1:1,2,4,5", "2:4,5"];
    for (options, files, wanted) in [
        (&right[..], &["stations/K.txt"][..], 0),
        (&wrong, &["stations/K.txt"], 3),
        (&wrong, &["stations/K.txt", "stations/points-twice.txt"], 1),
        (&wrong, &["stations/K.txt", "no-such-file"], 2),
        (&["--setting", "11"], &["stations/K6.txt"], 2),
        (&["--setting", "1111"], &["stations/K6.txt"], 0),
    ] {
        let (_, _, status) = told(&station(&[&["explain"], options, files].concat()));
        assert_eq!(status, wanted, "{options:?} {files:?}");
        assert!(overview.contains(&format!("\n  {status}  ")), "{overview}");
    }
    let (out, err, _) = told(&station(&["explain", "--setting", "11", "stations/K6.txt"]));
    assert!(out.contains("The setting shown") && !out.contains("The setting 11"), "{out}");
    assert_eq!(err, "station: stations/K6.txt: --setting 11: 2 states are given, and the file has 4 open elements\n");
}

/// An answer that does not arrive is an error.
#[test]
fn an_answer_that_cannot_be_written_has_status_2() {
    let by_shell = |command: &str| {
        let output =
            Command::new("sh").args(["-c", command, env!("CARGO_BIN_EXE_station")]).current_dir(root()).output().expect("sh is there");
        told(&output)
    };
    let (_, err, status) = by_shell("\"$0\" explain stations/K.txt >&-");
    assert_eq!((err.as_str(), status), ("station: the answer cannot be written: the standard output is closed\n", 2));
    let (_, err, status) = by_shell("\"$0\" explain stations/K.txt > /dev/full");
    assert_eq!((err.as_str(), status), ("station: the answer cannot be written: No space left on device\n", 2));
    let (_, err, status) = by_shell("{ \"$0\" page stations/*.txt; echo $? >&2; } | :");
    assert_eq!((err.as_str(), status), ("2\n", 0));
    let (out, _, status) = by_shell("\"$0\" key stations/K.txt -o /dev/stderr >&-");
    assert_eq!((out.as_str(), status), ("", 0));
}

/// All frames of twelve open elements, on lines of a terminal.
#[test]
fn frames_of_twelve_elements_fit_a_terminal() {
    let mut file = String::from("S   14    0   12    2\n");
    for number in 1..=12 {
        file += &match number % 4 {
            0 => format!("D{number:>5}{:>5}{:>5}    0\n", number + 1, number + 2),
            _ => format!("L{number:>5}{:>5}    0     \n", number + 1),
        };
    }
    file += "T    1               \nT    5               \n";
    let (out, err, status) = told(&station_with(&["explain", "--frames", "0-63", "-"], file.as_bytes()));
    assert_eq!((err.as_str(), status), ("", 0));
    let frames = out.split("\nFrames 0 to 63\n").nth(1).expect("frames");
    assert!(frames.lines().count() > 64 && frames.lines().all(|line| line.len() <= 100), "{frames}");
    assert!(frames.lines().take(65).all(|line| line.len() <= 80), "{frames}");
    let states = "signals 1, 2, 3, 5, 6, 7, 9, 10 and 11: 1 proceed, 2 stop. turnouts 4, 8 and 12: 1 straight, 2 diverted.";
    assert!(frames.replace('\n', " ").contains(states), "{frames}");
}

#[test]
fn help_is_printed() {
    let (overview, err, status) = told(&station(&["--help"]));
    assert_eq!((err.as_str(), status), ("", 0));
    for command in COMMANDS {
        assert!(
            overview.contains(&format!("\n  {} ", command.name)) || overview.contains(&format!("\n  {}\n", command.name)),
            "{}",
            command.name
        );
        let (out, _, status) = told(&station(&[command.name, "--help"]));
        assert_eq!(status, 0);
        assert!(out.starts_with(&format!("usage: station {}", command.name)), "{out}");
    }
}

/// Help, manual and completions say the same: each command and each option of the table.
#[test]
fn manual_and_completions_have_every_command_and_option() {
    let printed = |arguments: &[&str]| {
        let (out, err, status) = told(&station(arguments));
        assert_eq!((err.as_str(), status), ("", 0));
        out
    };
    let manual = printed(&["manual"]);
    let [bash, zsh, fish] = ["bash", "zsh", "fish"].map(|shell| printed(&["completions", shell]));
    for command in COMMANDS {
        assert!(manual.contains(&format!("\n.SS station {}", command.name)), "{}", command.name);
        assert!(
            fish.contains(&format!(" -a {} -d ", command.name)) && zsh.contains(&format!("\n    '{}:", command.name)),
            "{}",
            command.name
        );
        let bash =
            bash.lines().find(|line| line.trim_start().starts_with(&format!("{},-*) ", command.name))).expect("a line of the command");
        let zsh =
            zsh.split(&format!("\n{})\n", command.name)).nth(1).and_then(|text| text.split(";;").next()).expect("a part of the command");
        let help = printed(&["help", command.name]);
        assert!(command.options.iter().all(|option| help.contains(&option.usage())), "{help}");
        for option in command.all_options() {
            assert!(manual.contains(&option.name.replace('-', "\\-")), "{}", option.name);
            assert!(bash.contains(option.name) && zsh.contains(option.name), "{} {}", command.name, option.name);
            assert!(fish.contains(&format!(" -l {} ", &option.name[2..])), "{}", option.name);
        }
    }
}

/// Many files, so that every core has some.
#[test]
fn check_looks_at_every_file_of_a_folder() {
    let folder = std::env::temp_dir().join(format!("station-check-{}", std::process::id()));
    std::fs::create_dir_all(folder.join("inside")).expect("a folder");
    let names = stations();
    for number in 0..500 {
        let name = &names[number % names.len()];
        std::fs::copy(root().join(name), folder.join(format!("{number}.txt"))).expect("a copy");
    }
    let (out, err, status) = told(&station(&["check", folder.to_str().expect("a name")]));
    std::fs::remove_dir_all(&folder).expect("the folder goes");
    assert_eq!((err.as_str(), status), ("", 1));
    assert!(out.contains(": 500 files in "), "{out}");
    let refused = (0..500).filter(|number| names[number % names.len()].contains("points-twice")).count();
    assert!(out.lines().any(|line| line.starts_with("refused ") && line.ends_with(&format!(" {refused}"))), "{out}");
}

/// What docs/EXAMINERS.md shows of a command is what the command prints, but for what is left out.
#[test]
fn the_page_for_examiners_shows_what_is_printed() {
    let page = String::from_utf8(read("docs/EXAMINERS.md")).expect("text");
    let mut shown = 0;
    for block in page.split("```").skip(1).step_by(2) {
        let mut lines = block.trim_start_matches('\n').lines();
        let Some(command) = lines.next().and_then(|line| line.strip_prefix("$ station explain ")) else { continue };
        let (out, _, _) = told(&station(&[&["explain"], command.split_whitespace().collect::<Vec<_>>().as_slice()].concat()));
        let mut printed = out.lines();
        for line in lines.filter(|line| !line.is_empty()) {
            assert!(printed.any(|other| other == line), "{command}: {line:?} is not printed, or not in this order");
        }
        shown += 1;
    }
    assert_eq!(shown, 4);
    let (out, _, _) = told(&station(&["explain", "--drawing", "1:1,2,4,5", "2:4,5", "stations/K.txt"]));
    assert!(out.contains("No, it is not right.\n  train 1, not permitted: 2 to 4: turnout 2, straight (line 4)\n"));
}
