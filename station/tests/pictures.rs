//! Pictures and pages: well-formed, with as many things as the file has; and no file that explain, draw or the marks of a refusal fail on.

use crate::common;

use common::{Tag, files, groups, on_all_cores, read, station, stations, told, xml};
use judge::Section;
use oracle::generate;
use oracle::random::Random;
use station::ask::{self, Answer};
use station::model::Station;
use station::moves::Moves;
use station::{cause, questions, shown, words};

/// Checks a picture against the station that it is of.
fn check_picture(picture: &str, station: &Station) -> Result<(), String> {
    let tags = xml(picture)?;
    let filed = &station.filed;
    let turnouts = filed.elements.iter().filter(|element| element.is_turnout()).count();
    let wanted = [
        ("section", usize::from(filed.sections)),
        ("plain", filed.plain.len()),
        ("signal", filed.elements.len() - turnouts),
        ("turnout", turnouts),
        ("train", filed.trains.len()),
    ];
    for (class, number) in wanted {
        if groups(&tags, class) != number {
            return Err(format!("{} of class {class} in place of {number}", groups(&tags, class)));
        }
    }
    let root = tags.first().ok_or("no root")?;
    if root.name != "svg" || root.get("role") != Some("img") || root.get("aria-labelledby").is_none() {
        return Err(String::from("the root is no picture with a text alternative"));
    }
    if picture.contains("NaN") || picture.contains("inf") {
        return Err(String::from("a place that is no number"));
    }
    apart(&tags)
}

/// Sections stand apart: no two of them closer than a label is high, one above the other.
fn apart(tags: &[Tag]) -> Result<(), String> {
    const CLOSEST: f64 = 20.0;
    // Left end, height and right end of each, as in M26 40H116. The first in the legend is no section.
    let bars = tags.iter().filter(|tag| tag.get("class") == Some("bar")).filter_map(|tag| tag.get("d"));
    let mut places: Vec<(f64, f64, f64)> = Vec::new();
    for data in bars {
        let numbers: Vec<f64> = data.split(['M', ' ', 'H']).filter_map(|number| number.parse().ok()).collect();
        let [left, height, right] = numbers[..] else { return Err(format!("a section {data:?}")) };
        places.push((height, left, right));
    }
    let sections = groups(tags, "section");
    places.truncate(sections);
    places.sort_by(|one, two| one.partial_cmp(two).unwrap_or(std::cmp::Ordering::Equal));
    for (place, one) in places.iter().enumerate() {
        for two in places[place + 1..].iter().take_while(|two| two.0 - one.0 < CLOSEST) {
            if one.1 < two.2 && two.1 < one.2 {
                return Err(format!("sections at {one:?} and {two:?}"));
            }
        }
    }
    Ok(())
}

/// Explains and draws a file, and checks what comes out.
fn check_file(file: &[u8]) -> Result<(), String> {
    let answer = ask::answer(file);
    let told = words::of_answer(&answer, file);
    let text = station::told("file", &told);
    if text.chars().any(|c| c.is_control() && c != '\n') {
        return Err(String::from("a character that no terminal should get"));
    }
    let key = judge::key_text(file);
    agrees(&answer, &key)?;
    match &answer {
        Answer::Refused(refusal) => {
            let shown = cause::of_station(*refusal, file);
            let marked = shown.quotes.iter().any(|quote| !quote.marks.is_empty());
            if shown.notes.is_empty() || (!marked && refusal.number() != 1) {
                return Err(format!("{refusal} has no mark or no note"));
            }
            if shown::picture("file", &answer, "", true).is_some() {
                return Err(String::from("a picture of a refused file"));
            }
            return Ok(());
        }
        Answer::Judged(station, judged) => {
            let last = judged.danger.as_ref().map_or(station.filed.trains.len(), |danger| danger.trains[1]);
            let moves = Moves::of(station);
            let mut sums = (0, 0);
            for train in 1..=last {
                let alone = ask::verdict_of_train(station, train).map_err(|refusal| refusal.to_string())?;
                let reach = moves.reach(&station.filed.trains[train - 1]);
                if alone.entries as usize != reach.len() {
                    return Err(format!("train {train} is said to come to {reach:?}"));
                }
                sums = (sums.0 + alone.entries, sums.1 + alone.looks);
            }
            if sums != (judged.entries, judged.looks) {
                return Err(format!("counts {sums:?} train by train"));
            }
            let steps = judged.danger.iter().flat_map(|danger| &danger.paths).flat_map(|path| path.windows(2));
            if let Some(step) = steps.into_iter().find(|step| !station.permits(step[0], step[1])) {
                return Err(format!("no line is named for {} to {}", step[0], step[1]));
            }
        }
        Answer::TooManyOpen(..) | Answer::Opening(..) | Answer::Set(..) => {}
    }
    let Some(station) = answer.station() else { return Ok(()) };
    let picture = shown::picture("a <file> & \"more\"", &answer, "p1-", true).ok_or("no picture")?;
    check_picture(&picture, station)
}

/// The answer in words is about the answer of the key.
fn agrees(answer: &Answer, key: &str) -> Result<(), String> {
    let first = key.lines().next().unwrap_or("");
    let told = match answer {
        Answer::Refused(refusal) | Answer::TooManyOpen(_, refusal) | Answer::Opening(_, refusal, _) => {
            format!("R{:>5}{:>5}          ", refusal.number(), refusal.line())
        }
        Answer::Judged(_, judged) => match &judged.danger {
            Some(danger) => format!("V    1{:>5}{:>5}{:>5}", judged.entries, judged.looks, danger.meeting),
            None => format!("V    0{:>5}{:>5}     ", judged.entries, judged.looks),
        },
        Answer::Set(_, Some(best)) => format!("Q    1{:>5}{:>5}     ", best.safe, best.proceed),
        Answer::Set(_, None) => String::from("Q    0    0    0     "),
    };
    if told == first { Ok(()) } else { Err(format!("{told:?} beside the key's {first:?}")) }
}

#[test]
fn every_generated_file_is_explained_and_drawn() {
    on_all_cores(files(), |index| check_file(&generate::case(index).file));
}

#[test]
fn every_station_is_explained_and_drawn() {
    for name in stations() {
        check_file(&read(&name)).unwrap_or_else(|failure| panic!("{name}: {failure}"));
    }
}

/// What is said to be wrong with a drawing is what the library's "no" rests on: something is said exactly where it says no.
#[test]
fn a_wrong_drawing_has_a_fault_and_a_right_one_none() {
    on_all_cores(files().min(20_000), |index| {
        let file = generate::case(index).file;
        let Answer::Judged(station, judged) = ask::answer(&file) else { return Ok(()) };
        let trains = station.filed.trains.len();
        if trains == 0 {
            return Ok(());
        }
        let mut random = Random::new(index);
        for _ in 0..4 {
            let mut named = [0; 2].map(|_: u16| random.between(1, trains as u32) as u16);
            let mut paths = [0, 0].map(|_: u16| {
                let length = random.between(0, 4);
                (0..length).map(|_| Section(random.between(0, u32::from(station.filed.sections) + 1) as u16)).collect::<Vec<_>>()
            });
            if let Some(danger) = judged.danger.as_ref().filter(|_| random.once_in(2)) {
                named = danger.trains.map(|train| train as u16);
                paths = danger.paths.clone();
                if random.once_in(2) && !paths[0].is_empty() {
                    let place = random.place(paths[0].len());
                    paths[0][place] = Section(random.between(1, u32::from(station.filed.sections)) as u16);
                }
            }
            let [first, second] = &paths;
            let yes = judge::drawing(&file, judge::Train(named[0]), judge::Train(named[1]), first, second)
                .map_err(|refusal| refusal.to_string())?;
            let faults = questions::faults(&station, named, [first, second]);
            if faults.is_empty() != yes {
                return Err(format!("{named:?} {paths:?}: {yes}, and the faults are {faults:?}"));
            }
        }
        Ok(())
    });
}

#[test]
fn a_page_of_all_stations() {
    let all = stations();
    let arguments: Vec<&str> = std::iter::once("page").chain(all.iter().map(String::as_str)).collect();
    let (page, err, status) = told(&station(&arguments));
    assert_eq!((err.as_str(), status), ("", 1));
    let tags = xml(&page).unwrap_or_else(|failure| panic!("{failure}"));
    let count = |name: &str| tags.iter().filter(|tag| tag.name == name).count();
    assert_eq!(count("article"), all.len());
    // One of the stations is refused and has no picture.
    assert_eq!(count("svg"), all.len() - 1);
    for (name, tag) in all.iter().zip(tags.iter().filter(|tag| tag.name == "article")) {
        assert!(tag.get("id").is_some(), "{name}");
        assert!(page.contains(name), "{name}");
        let key = String::from_utf8(read(&name.replace(".txt", ".key"))).expect("a key");
        assert!(page.contains(&key), "{name}");
    }
    for outside in ["<script", "<link", "<img", "<iframe", "src=", "@import", "javascript:", "http:", "https:"] {
        // The one address is the name of SVG.
        assert!(!page.replace("http://www.w3.org/2000/svg", "").contains(outside), "{outside}");
    }
    assert!(tags.iter().all(|tag| tag.attributes.iter().all(|(key, _)| !key.starts_with("on"))));
}

#[test]
fn the_checker_of_xml_finds_faults() {
    for wrong in [
        "<a>",
        "<a></b>",
        "<a><b></a></b>",
        "<a b=c/>",
        "<a b=\"1\" b=\"2\"/>",
        "<a>&nbsp;</a>",
        "<a>1 & 2</a>",
        "<a/><b/>",
        "<a id=\"x\"><b id=\"x\"/></a>",
        "<a aria-labelledby=\"x\"/>",
        "<a b=\"<\"/>",
        "<a>\u{1b}</a>",
        "text<a/>",
        "<a b=\"url(#c)\"/>",
    ] {
        assert!(xml(wrong).is_err(), "{wrong}");
    }
    assert_eq!(xml("<a b=\"&lt;\">x<c/></a>\n").expect("it is well-formed").len(), 2);
}
