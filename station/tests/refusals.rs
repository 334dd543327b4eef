//! A refusal of each number, with its mark under the field that causes it.

use crate::common;

use common::{compare, read, station_with, told};

/// Lines of 22 bytes from lines whose fields are written with single spaces; `_` is a blank field.
fn lines(text: &str) -> Vec<u8> {
    let mut file = Vec::new();
    for line in text.lines() {
        let mut fields = line.split(' ');
        let letter = fields.next().unwrap_or("");
        let mut row = String::from(letter);
        for _ in 0..4 {
            let field = fields.next().unwrap_or("_");
            row += &format!("{:>5}", if field == "_" { "" } else { field });
        }
        file.extend(row.bytes());
        file.push(b'\n');
    }
    file
}

/// Station K with one of its lines, counted from 1, replaced.
fn k_with(number: usize, line: &str) -> Vec<u8> {
    let mut rows = ["S 5 1 4 2", "P 2 1", "L 1 2 1", "D 2 3 4 1", "L 3 5 1", "L 4 5 1", "T 1", "T 4"];
    rows[number - 1] = line;
    lines(&rows.join("\n"))
}

fn open_signals(signals: usize, turnouts: usize) -> Vec<u8> {
    let mut text = format!("S 100 0 {} 0\n", signals + turnouts);
    for signal in 1..=signals {
        text += &format!("L {signal} {} 0\n", signal + 1);
    }
    for turnout in 0..turnouts {
        text += &format!("D {} {} {} 0\n", 40 + 3 * turnout, 41 + 3 * turnout, 42 + 3 * turnout);
    }
    lines(text.trim_end())
}

/// What is tried: the number, what it is, the arguments, and the standard input.
fn cases() -> Vec<(u16, &'static str, Vec<&'static str>, Vec<u8>)> {
    let mut cases: Vec<(u16, &'static str, Vec<&'static str>, Vec<u8>)> = Vec::new();
    let mut explain = |number: u16, what: &'static str, file: Vec<u8>| cases.push((number, what, vec!["explain", "-"], file));
    let k = read("stations/K.txt");
    explain(1, "an empty file", vec![]);
    explain(1, "line ends of two bytes", String::from_utf8_lossy(&k).replace('\n', "\r\n").into_bytes());
    explain(1, "no line feed at the end", k[..k.len() - 1].to_vec());
    explain(1, "a line that is too short", String::from_utf8_lossy(&k).replacen("P    2    1          ", "P    2    1", 1).into_bytes());
    explain(1, "a file that is too long", k.repeat(200));
    let text = String::from_utf8(k.clone()).expect("text");
    explain(1, "the mark of UTF-8", [b"\xef\xbb\xbf", k.as_slice()].concat());
    explain(1, "UTF-16 with its mark", "\u{feff}".encode_utf16().chain(text.encode_utf16()).flat_map(u16::to_le_bytes).collect());
    explain(2, "UTF-16 without a mark", text.encode_utf16().flat_map(u16::to_be_bytes).collect());
    explain(1, "tabs in place of spaces", text.replace("    ", "\t").into_bytes());
    explain(
        1,
        "spaces taken away at the ends of lines",
        text.lines().map(|line| format!("{}\n", line.trim_end())).collect::<String>().into_bytes(),
    );
    explain(2, "line ends of two bytes, and a length that is a multiple of 22", {
        let rows: Vec<String> = (1..=21).map(|section| format!("P {section} {}", section + 1)).collect();
        String::from_utf8(lines(&format!("S 30 21 0 0\n{}", rows.join("\n")))).expect("text").replace('\n', "\r\n").into_bytes()
    });
    explain(2, "a first line that is none", k_with(1, "s 5 1 4 2"));
    explain(2, "a P line among the elements", k_with(4, "P 2 3"));
    explain(2, "a letter in a number", k_with(3, "L 1 2x 1"));
    explain(2, "a field that is empty", k_with(3, "L 1 2 _"));
    explain(2, "a field that is not used", k_with(2, "P 2 1 1"));
    explain(2, "a second section under S", k_with(7, "T 1 2"));
    explain(2, "a gap under U", lines("U 5 0 0 1\nT 1 _ 2"));
    explain(2, "no section under U", lines("U 5 0 0 1\nT"));
    explain(2, "a tab", {
        let mut file = k.clone();
        file[25] = b'\t';
        file
    });
    explain(2, "a line that goes on", {
        let mut file = k.clone();
        file[43] = b' ';
        file
    });
    explain(3, "too many sections", k_with(1, "S 513 1 4 2"));
    explain(3, "no section", k_with(1, "S 0 1 4 2"));
    explain(3, "too many trains", k_with(1, "S 5 1 4 65"));
    explain(4, "a line too many", k_with(1, "S 5 1 4 1"));
    explain(4, "an element that is not counted", k_with(1, "S 5 1 3 2"));
    explain(4, "a P line and a train that are not there", k_with(1, "S 5 2 4 3"));
    explain(5, "a section that is not there", k_with(8, "T 6"));
    explain(5, "a section of a leg", k_with(4, "D 2 3 0 1"));
    explain(5, "a section of a long train", lines("U 5 0 0 1\nT 1 2 7"));
    explain(6, "a state of a signal", k_with(5, "L 3 5 3"));
    explain(6, "a state of a turnout", k_with(4, "D 2 3 4 9"));
    explain(7, "a section twice", k_with(2, "P 2 2"));
    explain(7, "a leg that is the stem", k_with(4, "D 2 3 2 1"));
    explain(7, "a section of a long train twice", lines("U 5 0 0 1\nT 1 2 3 2"));
    explain(8, "two signals", k_with(6, "L 3 5 1"));
    explain(8, "a signal under a P line", k_with(3, "L 2 1 1"));
    explain(8, "two turnouts", k_with(6, "D 2 3 5 1"));
    explain(8, "two turnouts over one leg", k_with(6, "D 3 5 2 1"));
    explain(11, "thirteen open turnouts, which the opening question refuses too", open_signals(0, 13));
    let mut further = |number: u16, what: &'static str, options: &[&'static str], file: Vec<u8>| {
        cases.push((number, what, [&["explain"], options, &["-"]].concat(), file));
    };
    further(10, "a drawing while an element is open", &["--drawing", "1:1", "2:4"], read("stations/K6.txt"));
    further(11, "thirteen open turnouts", &["--can-be-safe"], open_signals(14, 13));
    further(11, "frames of too many", &["--frames", "0"], open_signals(13, 0));
    further(12, "a train that is not there", &["--drawing", "1:1", "3:4"], k.clone());
    further(13, "a long train for an old desk", &["--old-desks"], read("stations/U2.txt"));
    let mut routes = |number: u16, what: &'static str, file: Vec<u8>| {
        cases.push((number, what, vec!["routes", "stations/K.txt", "-"], file));
    };
    routes(14, "a K line where a route begins", lines("K 1"));
    routes(14, "a number with a leading zero", lines("R 1 01 2 0"));
    routes(14, "another number than its place", lines("R 2 1 2 0"));
    routes(14, "a start signal that is a turnout", lines("R 1 2 2 0"));
    routes(14, "an element that is not there", lines("R 1 5 2 0"));
    routes(14, "one section", lines("R 1 1 1 0"));
    routes(14, "too many turnouts", lines("R 1 1 2 17"));
    routes(14, "a section that is not there", lines("R 1 1 2 0\nK 1\nK 6"));
    routes(14, "a turnout that is a signal", lines("R 1 1 2 1\nK 1\nK 2\nW 1 1"));
    routes(14, "a state of 3", lines("R 1 1 2 1\nK 1\nK 2\nW 2 3"));
    routes(14, "a missing line", lines("R 1 1 2 1\nK 1\nK 2"));
    routes(14, "a cut line", lines("R 1 1 2 0\nK 1\nK 2")[..60].to_vec());
    routes(14, "line ends of two bytes", String::from_utf8_lossy(&lines("R 1 1 2 0\nK 1\nK 2")).replace('\n', "\r\n").into_bytes());
    routes(14, "a line that goes on", {
        let mut file = lines("R 1 1 2 0\nK 1\nK 2");
        file[43] = b'x';
        file
    });
    routes(15, "a step that no line stands over", lines("R 1 1 2 0\nK 1\nK 3"));
    cases.push((8, "routes of a station that is refused", vec!["routes", "stations/points-twice.txt", "-"], vec![]));
    let mut log = |number: u16, what: &'static str, file: Vec<u8>| cases.push((number, what, vec!["answers", "-"], file));
    log(16, "a cut line", lines("C 1 1 1 1")[..21].to_vec());
    log(16, "too many lines", lines("C 1 1 1 1").repeat(1001));
    log(16, "another letter", lines("D 1 1 1 1"));
    log(16, "the mark of UTF-8", [b"\xef\xbb\xbf", lines("C 1 1 1 1").as_slice()].concat());
    log(16, "a candidate of 0", lines("C 1 1 1 1\nC 0 1 1 1"));
    log(16, "an answer above 4097", lines("C 1 1 1 4098"));
    log(16, "a field that is empty", lines("C 1 1 1 _"));
    log(17, "a sequence twice", lines("C 1 1 1 1\nC 2 1 1 1\nC 1 1 1 5"));
    let mut marks = |number: u16, what: &'static str, file: &[u8]| cases.push((number, what, vec!["report", "-"], file.to_vec()));
    marks(18, "a candidate of 0", b"# marks\n1 1 1 1\n0 1 1 1\n");
    marks(18, "a question of 100", b"1;100;1;1\n");
    marks(18, "more gained than possible", b"1, 1, 11, 10\n");
    marks(18, "above 100 possible", b"1 1 1 101\n");
    marks(18, "a number that is far too large", b"1 1 1 99999999999999999999\n");
    marks(19, "1,000 records", &b"1 1 1 1\n".repeat(1000));
    cases.push((21, "more trains than sections", ["place", "--paper", "1", "--sections", "2", "--trains", "3"].to_vec(), vec![]));
    cases
}

#[test]
fn each_refusal_is_told_with_its_mark() {
    let mut text = String::new();
    let mut seen = std::collections::BTreeSet::new();
    for (number, what, arguments, input) in cases() {
        let (out, err, status) = told(&station_with(&arguments, &input));
        assert_eq!((err.as_str(), status), ("", 1), "{what}");
        let named = out.lines().any(|line| line.starts_with(&format!("{number}: ")));
        assert!(named, "{what}: {number} is not told\n{out}");
        // What belongs to a line has a mark.
        let no_line = matches!(number, 12 | 19 | 21)
            || matches!(what, "an empty file" | "a file that is too long" | "a missing line" | "too many lines");
        assert_eq!(out.contains('^'), !no_line, "{what}\n{out}");
        seen.insert(number);
        text += &format!("== {what}: station {}\n{out}\n", arguments.join(" "));
    }
    // 9 cannot be: the program lends enough. 20 is of an operation that it has no use for.
    let wanted: Vec<u16> = (1..=21).filter(|number| ![9, 20].contains(number)).collect();
    assert_eq!(seen.into_iter().collect::<Vec<_>>(), wanted);
    compare("station/tests/stored/refusals.txt", &text);
}

#[test]
fn what_is_no_list_of_marks_is_refused_too() {
    let (out, err, status) = told(&station_with(&["report", "-"], b"1 1 1 1\n1 one 1 1\n"));
    assert_eq!((err.as_str(), status), ("", 1));
    assert!(out.contains("Not a list of marks, line 2.\n\n  line 2: 1 one 1 1\n            ^^^\n"), "{out}");
    let wide: Vec<u8> = "1 1 1 1\n".encode_utf16().flat_map(u16::to_le_bytes).collect();
    let (out, _, status) = told(&station_with(&["report", "-"], &wide));
    assert!(out.contains("Not a list of marks.\n\nThe file is UTF-16, two bytes a character") && status == 1, "{out}");
}
