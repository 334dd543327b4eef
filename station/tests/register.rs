//! The register: a line for each of many files, as a table and as JSON.

use crate::common;

use std::ffi::OsStr;
use std::os::unix::ffi::OsStrExt;
use std::os::unix::fs::symlink;
use std::os::unix::net::UnixListener;
use std::process::Command;

use common::{Folder, Json, csv, json, read, root, station, station_with, stations, told};
use judge::{Settings, State};
use oracle::generate;
use station::register::Finding;

const HEADING: [&str; 14] = [
    "file",
    "answer",
    "refusal",
    "line",
    "verdict",
    "first train",
    "second train",
    "meeting section",
    "entries",
    "looks",
    "safe settings",
    "proceed count",
    "setting",
    "why",
];

/// The fields of a line of a key.
fn fields(line: &str) -> Vec<&str> {
    line.split_whitespace().skip(1).collect()
}

/// The states of the open elements where every open signal is at stop and the turnouts are as the settings question has them then.
fn turnouts_alone(file: &[u8]) -> String {
    let filed = judge::read(file).expect("a file that was accepted");
    let mut stopped = filed.clone();
    for element in stopped.elements.iter_mut().filter(|element| element.state().is_open() && !element.is_turnout()) {
        *element.state_mut() = State::Two;
    }
    let mut list = [State::Open; judge::MAX_ELEMENTS];
    let stopped = judge::to_bytes(&stopped).expect("a station");
    let Ok(Settings::Best { setting, .. }) = judge::settings(&stopped, &mut list) else { panic!("no setting") };
    let open = filed.elements.iter().zip(setting).filter(|(element, _)| element.state().is_open());
    open.map(|(_, state)| state.to_string()).collect::<Vec<_>>().join(" ")
}

/// The cells from `answer` to `setting` that a file has by its key, read anew; of an opening paper, those that the opening question gives in place of its R line.
fn by_key(file: &[u8]) -> Vec<String> {
    let key = judge::key_text(file);
    let lines: Vec<&str> = key.lines().collect();
    let first = fields(lines[0]);
    let mut cells = vec![String::new(); 12];
    if let ("11", Ok(yes)) = (first[0], judge::can_be_safe(file))
        && key.starts_with('R')
    {
        cells[0] = String::from("accepted");
        cells[3] = String::from(if yes { "can be safe" } else { "cannot be safe" });
        cells[11] = if yes { turnouts_alone(file) } else { String::new() };
        return cells;
    }
    cells[0] = String::from(if key.starts_with('R') { "refused" } else { "accepted" });
    let mut set = |cell: usize, text: &str| cells[cell] = String::from(text);
    match (&key[..1], first[0]) {
        ("R", _) => {
            set(1, first[0]);
            set(2, first[1]);
        }
        ("V", dangerous) => {
            set(3, if dangerous == "1" { "dangerous" } else { "safe" });
            set(7, first[1]);
            set(8, first[2]);
            if dangerous == "1" {
                let train = |letter: char| fields(lines.iter().find(|line| line.starts_with(letter)).expect("a path"))[0];
                set(4, train('A'));
                set(5, train('B'));
                set(6, first[3]);
            }
        }
        (_, some) => {
            set(3, if some == "1" { "open" } else { "none safe" });
            set(9, first[1]);
            set(10, first[2]);
            let situation = judge::read(file).expect("a file that was accepted");
            let elements = situation.elements.iter().zip(&lines[1..]).filter(|(element, _)| element.state().is_open());
            let states: Vec<&str> = elements.map(|(_, line)| fields(line)[1]).collect();
            set(11, &states.join(" "));
        }
    }
    cells
}

/// The same cells from an object of JSON.
fn by_object(object: &Json) -> Vec<String> {
    let text = |value: &Json| match value {
        Json::Null => String::new(),
        Json::Number(number) => number.to_string(),
        other => String::from(other.text()),
    };
    let refusal = object.field("refusal");
    let of_refusal = |name: &str| if *refusal == Json::Null { String::new() } else { text(refusal.field(name)) };
    let listed = |name: &str| if *object.field(name) == Json::Null { vec![] } else { object.field(name).numbers() };
    let train = |place: usize| listed("trains").get(place).map_or(String::new(), u64::to_string);
    let setting: Vec<String> = listed("setting").iter().map(u64::to_string).collect();
    assert_eq!(setting.len(), listed("open").len());
    let mut cells =
        vec![text(object.field("answer")), of_refusal("number"), of_refusal("line"), text(object.field("verdict")), train(0), train(1)];
    cells.extend(["meeting_section", "entries", "looks", "safe_settings", "proceed_count"].map(|name| text(object.field(name))));
    cells.push(setting.join(" "));
    cells
}

#[test]
fn the_register_has_what_the_key_has() {
    let folder = Folder::new("register");
    let mut files: Vec<(String, Vec<u8>)> = (0..600).map(|index| (format!("{index:04}.txt"), generate::case(index).file)).collect();
    files.extend(stations().iter().map(|name| (name.replace('/', "-"), read(name))));
    for (name, file) in &files {
        folder.with(name, file);
    }
    files.sort();
    let (out, err, status) = told(&station(&["check", "--csv", folder.name()]));
    assert_eq!(status, 1);
    assert!(err.starts_with(&format!("station: {} files in ", files.len())), "{err}");
    let table = csv(&out);
    assert_eq!(table[0], HEADING);
    let (out, err, status) = told(&station(&["check", "--json", "--quiet", folder.name()]));
    assert_eq!((err.as_str(), status), ("", 1));
    let objects: Vec<Json> = out.lines().map(json).collect();
    assert_eq!((table.len() - 1, objects.len()), (files.len(), files.len()));
    for (((name, file), row), object) in files.iter().zip(&table[1..]).zip(&objects) {
        let wanted = by_key(file);
        assert_eq!((&row[0], &row[1..13]), (name, wanted.as_slice()), "{name}");
        assert_eq!((object.field("file").text(), by_object(object)), (name.as_str(), wanted), "{name}");
        assert_eq!(object.field("version"), &Json::Number(1));
        assert_eq!(row[13].is_empty(), row[1] == "accepted", "{name}");
    }
    // The counts are those of the same folder.
    let (out, _, _) = told(&station(&["check", folder.name()]));
    let counted =
        |label: &str| out.lines().find(|line| line.trim_start().starts_with(label)).and_then(|line| line.split_whitespace().nth(1));
    for word in ["accepted", "dangerous", "safe", "refused"] {
        let rows = table[1..].iter().filter(|row| row[1] == word || row[4] == word).count();
        assert_eq!(counted(word), Some(rows.to_string().as_str()), "{word}");
    }
}

/// The row of every generated file is what its key says.
#[test]
fn findings_are_those_of_the_key() {
    let files = std::env::var("STATION_FILES").ok().and_then(|number| number.replace([',', '_'], "").parse().ok()).unwrap_or(5_000);
    for index in 0..files {
        let file = generate::case(index).file;
        let row = csv(&Finding::of(&file).row(OsStr::new("K.txt")));
        assert_eq!(&row[0][1..13], by_key(&file).as_slice(), "file {index}");
    }
}

#[test]
fn names_come_from_the_standard_input() {
    let names = stations();
    let check = |options: &[&str], input: String| {
        told(&station_with(&[&["check", "-q", "--csv", "--no-heading"], options, &["-"]].concat(), input.as_bytes()))
    };
    let (whole, err, status) = check(&[], names.join("\n"));
    assert_eq!((err.as_str(), status), ("", 1));
    let rows = csv(&whole);
    assert_eq!(rows.iter().map(|row| row[0].clone()).collect::<Vec<_>>(), names);
    assert_eq!(check(&["-0"], names.join("\0") + "\0").0, whole);
    // Parts put together are the whole.
    let (one, two) = names.split_at(7);
    assert_eq!(check(&[], one.join("\n")).0 + &check(&[], two.join("\n") + "\n\n").0, whole);
    assert_eq!(
        told(&station(
            &[&["check", "-q", "--csv", "--no-heading"], names.iter().map(String::as_str).collect::<Vec<_>>().as_slice()].concat()
        ))
        .0,
        whole
    );
    // What cannot be read has a row that says why.
    let (out, _, status) = check(&[], String::from("no-such-file\nstations\n/dev/zero\nstations/K.txt\n"));
    let why: Vec<(String, String)> = csv(&out).into_iter().map(|row| (row[1].clone(), row[13].clone())).collect();
    let unreadable = |why: &str| (String::from("unreadable"), String::from(why));
    let wanted = [
        unreadable("No such file or directory"),
        unreadable("Is a directory"),
        unreadable("Is no regular file"),
        (String::from("accepted"), String::new()),
    ];
    assert_eq!((why.as_slice(), status), (&wanted[..], 2));
    let (out, err, status) = check(&[], String::new());
    assert_eq!((out.as_str(), err.as_str(), status), ("", "station: there is no file in standard input\n", 2));
}

/// Pipes, sockets and devices would be waited for.
#[test]
fn only_regular_files_are_judged() {
    let folder = Folder::new("pipes");
    folder.with("K.txt", &read("stations/K.txt"));
    assert!(Command::new("mkfifo").arg(folder.0.join("pipe")).status().expect("mkfifo is there").success());
    let _socket = UnixListener::bind(folder.0.join("socket")).expect("a socket");
    symlink("/dev/zero", folder.0.join("device")).expect("a link");
    symlink(root().join("stations/K2.txt"), folder.0.join("link")).expect("a link");
    symlink("nowhere", folder.0.join("leads-nowhere")).expect("a link");
    symlink(root().join("stations"), folder.0.join("folder")).expect("a link");
    let (out, err, status) = told(&station(&["check", folder.name()]));
    assert_eq!((err.as_str(), status), ("station: leads-nowhere cannot be read: No such file or directory\n", 2));
    assert!(out.contains(": 3 files in "), "{out}");
    assert!(
        out.lines().any(|line| line.split_whitespace().eq(["left", "out,", "no", "files", "3", "pipes,", "sockets,", "devices"])),
        "{out}"
    );
    let pipe = folder.0.join("pipe");
    let (_, err, status) = told(&station(&["check", pipe.to_str().expect("a name")]));
    assert_eq!((err.contains("cannot be read: Is no regular file"), status), (true, 2), "{err}");
}

#[test]
fn a_check_of_no_file_is_wrong_use() {
    let folder = Folder::new("empty");
    for (arguments, words) in [
        (vec!["check", folder.name()], "there is no file in"),
        (vec!["check", "--csv", folder.name()], "there is no file in"),
        (vec!["check", "--ending", ".station", "stations"], "there is no file whose name ends in .station in stations"),
        (vec!["check"], "no folder or file is given"),
        (vec!["check", "no-such-folder"], "no-such-folder cannot be read: No such file or directory"),
    ] {
        let (out, err, status) = told(&station(&arguments));
        assert_eq!((out.as_str(), status), ("", 2), "{arguments:?}");
        assert!(err.starts_with(&format!("station: {words}")), "{err}");
    }
}

/// The file that the answer goes to is none of those that are judged, and none that is read is overwritten.
#[test]
fn the_answer_goes_to_a_file() {
    let folder = Folder::new("output");
    let station_file = folder.with("K.txt", &read("stations/K.txt"));
    let register = folder.0.join("register.csv");
    let register_name = register.to_str().expect("a name");
    for _ in 0..2 {
        let (out, err, status) = told(&station(&["check", "--csv", "-q", "-o", register_name, folder.name()]));
        assert_eq!((out.as_str(), err.as_str(), status), ("", "", 0));
        assert_eq!(csv(&String::from_utf8(std::fs::read(&register).expect("the register")).expect("text")).len(), 2);
    }
    let name = station_file.to_str().expect("a name");
    let (_, err, status) = told(&station(&["key", name, "--output", name]));
    assert_eq!((status, std::fs::read(&station_file).expect("the station")), (2, read("stations/K.txt")));
    assert!(err.starts_with("station: the answer would overwrite "), "{err}");
    // Wrong use leaves the file as it is.
    let (_, _, status) = told(&station(&["key", "no-such-file", "-o", register_name]));
    assert_eq!((status, std::fs::read(&register).expect("the register").is_empty()), (2, false));
    let (_, err, status) = told(&station(&["key", "stations/K.txt", "-o", "no-such-folder/K.key"]));
    assert_eq!((err.as_str(), status), ("station: the answer cannot be written: No such file or directory\n", 2));
}

/// Names that are no text, that command a terminal, that need quotes, or that a spreadsheet takes for a formula.
#[test]
fn names_are_safe_to_show_and_to_open() {
    let folder = Folder::new("names");
    let names: [&[u8]; 8] = [b"=1+1.txt", b"+x", b"-x", b"@x", b"a, b.txt", b"say \"no\".txt", b"caf\xe9.txt", b"esc\x1b[31m\n.txt"];
    for name in names {
        folder.with(OsStr::from_bytes(name), &read("stations/points-twice.txt"));
    }
    let (out, err, status) = told(&station(&["check", "--csv", "-q", folder.name()]));
    assert_eq!((err.as_str(), status), ("", 1));
    let mut shown: Vec<String> = csv(&out)[1..].iter().map(|row| row[0].clone()).collect();
    shown.sort();
    let wanted = ["./+x", "./-x", "./=1+1.txt", "./@x", "a, b.txt", "caf\\xe9.txt", "esc\\x1b[31m\\x0a.txt", "say \"no\".txt"];
    assert_eq!(shown, wanted);
    let (out, _, _) = told(&station(&["check", "--json", "-q", folder.name()]));
    let bytes = |object: &Json| match object.field("file_bytes") {
        Json::Null => object.field("file").text().as_bytes().to_vec(),
        hex => hex
            .text()
            .as_bytes()
            .chunks(2)
            .map(|two| u8::from_str_radix(std::str::from_utf8(two).expect("digits"), 16).expect("digits"))
            .collect(),
    };
    let mut exact: Vec<Vec<u8>> = out.lines().map(|line| bytes(&json(line))).collect();
    exact.sort();
    let mut wanted: Vec<&[u8]> = names.to_vec();
    wanted.sort();
    assert_eq!(exact, wanted);
    // Every command opens such a file, and shows its name so that no terminal obeys it.
    for name in [&names[6], &names[7]] {
        let path = folder.0.join(OsStr::from_bytes(name));
        for command in ["key", "explain", "page", "draw", "check", "answers", "report"] {
            let (out, err, status) = told(&station(&[OsStr::new(command), path.as_os_str()]));
            assert_eq!(status, 1, "{command}: {err}");
            assert!(!(out + &err).chars().any(|c| c.is_control() && c != '\n'), "{command}");
        }
    }
    let missing = folder.0.join(OsStr::from_bytes(b"\x1b[31m"));
    let (_, err, status) = told(&station(&[OsStr::new("explain"), missing.as_os_str()]));
    assert_eq!((err.contains("\\x1b[31m cannot be read"), err.contains('\x1b'), status), (true, false, 2), "{err}");
    let (_, err, status) = told(&station(&["explain", "--setting", "\x1b[31m", "stations/K6.txt"]));
    assert_eq!((err.contains('\x1b'), status), (false, 2));
}
