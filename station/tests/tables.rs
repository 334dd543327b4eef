//! Route tables, standing answers and reports on many files, right and damaged: what is told is the library's answer, and every refusal has its mark.

use oracle::random::Random;
use oracle::{answers, report, routes};
use station::doc::{Part, Words};
use station::tables;

/// Whether a refusal is told with a mark or, where it belongs to no line, with a note.
fn is_told(words: &Words, number: u16) -> bool {
    let told = matches!(words.parts.first(), Some(Part::Text(text)) if text.starts_with(&format!("{number}: ")));
    let marked = words.parts.iter().any(|part| matches!(part, Part::Quote(quote) if !quote.marks.is_empty()));
    let noted = words.parts.iter().skip(1).any(|part| matches!(part, Part::Text(text) if !text.is_empty()));
    told && noted && (marked || words.summary.ends_with("no line.") || words.parts.iter().any(is_missing))
}

fn is_missing(part: &Part) -> bool {
    matches!(part, Part::Text(text) if text.contains(" is missing: "))
}

/// The letters of a matrix, row by row, without the numbers of the routes.
fn letters(words: &Words, routes: usize) -> Vec<String> {
    let after = words.parts.iter().skip_while(|part| **part != Part::Heading(String::from("Conflicts")));
    let rows = after.filter_map(|part| if let Part::List(lines) = part { Some(lines) } else { None }).next().cloned().unwrap_or_default();
    rows[rows.len() - routes..].iter().map(|row| row.split_whitespace().skip(1).collect()).collect()
}

#[test]
fn a_matrix_shows_the_library_s_table() {
    let mut outcomes = [0; 22];
    for index in 0..6_000 {
        let case = routes::case(index);
        let mut table = [0; judge::TABLE_SIZE];
        let given = judge::routes(&case.station, &case.file, &mut table);
        match (given, tables::routes(&case.station, &case.file, true)) {
            (Ok(table), Ok(words)) => {
                outcomes[0] += 1;
                let count = usize::from(table.routes());
                if count == 0 {
                    continue;
                }
                let shown = letters(&words, count).concat();
                assert_eq!(shown.len(), count * count, "routes {index}");
                for (place, (letter, &byte)) in shown.chars().zip(table.as_bytes()).enumerate() {
                    let wanted = match (byte, place / count == place % count) {
                        (0, true) => "-",
                        (0, false) => ".",
                        _ => "STB",
                    };
                    assert!(wanted.contains(letter), "routes {index}: {letter} for {byte}");
                }
            }
            (Err(refusal), Err(words)) => {
                outcomes[usize::from(refusal.number())] += 1;
                assert!(is_told(&words, refusal.number()), "routes {index}: {refusal}: {words:?}");
            }
            (given, told) => panic!("routes {index}: {given:?} and {told:?}"),
        }
    }
    assert!(outcomes[0] > 1000 && outcomes[14] > 500 && outcomes[15] > 100, "{outcomes:?}");
}

#[test]
fn standing_answers_are_the_library_s() {
    let mut outcomes = [0; 22];
    for index in 0..4_000 {
        let random = &mut Random::new(index);
        let lines = random.pick(&[0, 1, 3, 10, 60, 1000, 1001]);
        let mut log: Vec<u8> = answers::log(random, lines).into_iter().flat_map(answers::text).collect();
        if random.once_in(4) && !log.is_empty() {
            let line = judge::LINE_SIZE * random.place(log.len() / judge::LINE_SIZE);
            log.extend_from_within(line..line + judge::LINE_SIZE);
        }
        for _ in 0..random.pick(&[0, 0, 1, 2]) {
            if !log.is_empty() {
                let place = random.place(log.len());
                log[place] = if random.once_in(4) { random.byte() } else { random.pick(b" 0123456789C\n") };
            }
        }
        if random.once_in(10) {
            log.truncate(random.place(log.len() + 1));
        }
        let mut buffer = vec![0; log.len()];
        match (judge::standing_answers(&log, &mut buffer), tables::answers(&log)) {
            (Ok(standing), Ok(words)) => {
                outcomes[0] += 1;
                let rows = words.parts.iter().find_map(|part| if let Part::Table(table) = part { Some(table.rows.len()) } else { None });
                assert_eq!(rows.unwrap_or(0), standing.len() / judge::LINE_SIZE, "log {index}");
            }
            (Err(refusal), Err(words)) => {
                outcomes[usize::from(refusal.number())] += 1;
                assert!(is_told(&words, refusal.number()), "log {index}: {refusal}: {words:?}");
            }
            (given, told) => panic!("log {index}: {given:?} and {told:?}"),
        }
    }
    assert!(outcomes[0] > 500 && outcomes[16] > 100 && outcomes[17] > 10, "{outcomes:?}");
}

#[test]
fn reports_are_the_library_s() {
    let mut outcomes = [0; 22];
    for index in 0..4_000 {
        let random = &mut Random::new(index);
        let records = random.pick(&[0, 1, 3, 10, 60, 999, 1000]);
        let mut marks = report::list(random, records);
        if random.once_in(3) && !marks.is_empty() {
            let mark = random.place(marks.len());
            let number = random.pick(&[0, 100, 101, 9999, 10_000, u16::MAX]);
            match random.between(1, 4) {
                1 => marks[mark].candidate = number,
                2 => marks[mark].question = number,
                3 => marks[mark].gained = number,
                _ => marks[mark].possible = number,
            }
        }
        let mut text = String::new();
        for mark in &marks {
            let between = random.pick(&[" ", "\t", ",", "; ", "   "]);
            let fields = [mark.candidate, mark.question, mark.gained, mark.possible].map(|field| field.to_string());
            text += &(fields.join(between) + random.pick(&["\n", "\r\n", " \n", "\n\n", "\n# more\n"]));
        }
        let mut buffer = [0; judge::REPORT_SIZE];
        match (judge::report(&marks, &mut buffer), tables::report(text.as_bytes())) {
            (Ok(report), Ok(words)) => {
                outcomes[0] += 1;
                let [Part::Table(table)] = words.parts.as_slice() else { panic!("list {index}: no table") };
                let lines: Vec<String> = report.chunks(judge::LINE_SIZE).map(|line| String::from_utf8_lossy(line).into_owned()).collect();
                for (row, line) in table.rows.iter().zip(&lines) {
                    let fields: Vec<&str> =
                        (0..4).map(|place| line[1 + 5 * place..6 + 5 * place].trim()).filter(|field| !field.is_empty()).collect();
                    let row = if line.starts_with('Z') { &row[1..] } else { row };
                    assert_eq!(row, fields, "list {index}");
                }
                assert_eq!(table.rows.len(), lines.len());
            }
            (Err(refusal), Err(words)) => {
                outcomes[usize::from(refusal.number())] += 1;
                assert!(is_told(&words, refusal.number()), "list {index}: {refusal}: {words:?}");
            }
            (given, told) => panic!("list {index}: {given:?} and {told:?}"),
        }
    }
    assert!(outcomes[0] > 500 && outcomes[18] > 100 && outcomes[19] > 10, "{outcomes:?}");
}

/// Bytes that are nothing at all.
#[test]
fn nothing_fails_on_any_bytes() {
    let station = std::fs::read(concat!(env!("CARGO_MANIFEST_DIR"), "/../stations/K.txt")).expect("station K is there");
    for index in 0..3_000 {
        let random = &mut Random::new(index);
        let most = random.pick(&[3, 25, 200, 2000]);
        let known = random.once_in(2);
        let length = random.between(0, most);
        let bytes: Vec<u8> = (0..length).map(|_| if known { random.pick(b"   0123RKWC,;#\n\r") } else { random.byte() }).collect();
        let _ = tables::routes(&station, &bytes, true);
        let _ = tables::routes(&bytes, &bytes, true);
        let _ = tables::answers(&bytes);
        let _ = tables::report(&bytes);
    }
}
