//! The page of a walk: its frames are the library's; and, where Chromium is there, its buttons do what they say.

use crate::common;

use std::collections::BTreeSet;
use std::path::Path;
use std::process::Command;

use common::{Tag, read, root, station, station_with, told, xml};
use oracle::generate;
use station::ask;
use station::model::Station;
use station::walk::{self, Walk};

/// A page, well-formed.
fn page(name: &str) -> String {
    let (page, err, status) = told(&station(&["page", "--frames", name]));
    assert_eq!((err.as_str(), status), ("", 0), "{name}");
    xml(&page).unwrap_or_else(|failure| panic!("{name}: {failure}"));
    page
}

/// What the page has under a name of its data, as text.
fn data<'a>(page: &'a str, name: &str) -> &'a str {
    let after = page.split_once("id=\"walk\">").expect("data").1.split_once(&format!("\"{name}\":")).expect("the name").1;
    let after = after.split_once("\n").map_or(after, |(line, _)| line);
    after.trim_end_matches(['}', ',']).trim_end_matches("}</script>")
}

/// Each frame of a station file with its states and its verdict in short words, by the library.
fn frames(name: &str) -> Vec<(String, String)> {
    let file = read(name);
    let station = Station::new(judge::read(&file).expect("a station"));
    let open = station.open();
    (0..1 << open.len())
        .map(|number| {
            let setting = ask::frame(&file, number).expect("a frame");
            let states = open.iter().map(|&element| setting[element - 1].to_string()).collect();
            (states, ask::verdict_under(&station, &setting).expect("a verdict").short_words())
        })
        .collect()
}

const STATIONS: [&str; 6] =
    ["stations/K6.txt", "stations/K8.txt", "stations/K.txt", "stations/U3.txt", "stations/001-figure-4.txt", "stations/points-open.txt"];

#[test]
fn the_page_has_the_library_s_frames() {
    for name in STATIONS {
        let page = page(name);
        let frames = frames(name);
        let states: Vec<&str> = frames.iter().map(|(states, _)| states.as_str()).collect();
        assert_eq!(data(&page, "frames"), format!("\"{}\"", states.join(" ")), "{name}");
        let dangerous: Vec<bool> = frames.iter().map(|(_, verdict)| verdict != "safe").collect();
        let verdicts: Vec<bool> = data(&page, "verdicts").trim_matches(['[', ']']).split(',').map(|number| number != "-1").collect();
        assert_eq!(verdicts, dangerous, "{name}");
        let safe = dangerous.iter().filter(|dangerous| !**dangerous).count();
        assert!(page.contains(&format!(" {safe} of {} frame", frames.len())), "{name}");
    }
}

/// Whatever a frame shows of its paths by name is on the page.
fn names_are_there(page: &str, tags: &[Tag], what: &str) {
    let ids: BTreeSet<&str> = tags.iter().filter_map(|tag| tag.get("id")).collect();
    let has = |id: String| ids.contains(id.as_str());
    let paths: Vec<Vec<&str>> =
        data(page, "paths").trim_matches(['[', ']']).split("\",\"").map(|path| path.trim_matches('"').split(' ').collect()).collect();
    for danger in data(page, "dangers").split("],[").filter(|danger| danger.len() > 2) {
        let numbers: Vec<usize> = danger.split(',').map(|number| number.trim_matches(['[', ']']).parse().expect("a number")).collect();
        let [_, _, meeting, one, two] = numbers[..] else { panic!("{what}: {danger}") };
        assert!(has(format!("m-{meeting}")), "{what}");
        let both = if paths[one][0] == paths[two][0] { "-both" } else { "" };
        for (letter, path) in [('a', &paths[one]), ('b', &paths[two])] {
            assert!(has(format!("{letter}-{}{both}", path[0])), "{what}");
            assert!(path.windows(2).all(|step| has(format!("{letter}-{}-{}", step[0], step[1]))), "{what}: {path:?}");
        }
    }
}

/// What a frame can show by name is there; each open element is drawn in both states.
#[test]
fn what_frames_show_is_there() {
    for name in STATIONS {
        let page = page(name);
        names_are_there(&page, &xml(&page).expect("well-formed"), name);
        let open = Station::new(judge::read(&read(name)).expect("a station")).open();
        for number in open {
            for state in [1, 2] {
                assert!(page.contains(&format!("style=\"display:var(--e{number}s{state})\"")), "{name}: element {number}");
            }
        }
        for outside in ["<link", "<img", "<iframe", "src=", "@import", "javascript:", "https:", "fetch(", "XMLHttpRequest", "import("] {
            assert!(!page.contains(outside), "{outside}");
        }
        assert!(page.contains("default-src 'none'"));
    }
}

/// Walks through generated files: well-formed, every name that the script asks for is there, and each frame is there once.
#[test]
fn walks_through_generated_files() {
    let mut seen = 0;
    for index in 0..1_000 {
        let file = generate::case(index).file;
        let Some(station) = judge::read(&file).ok().map(Station::new).filter(|station| (1..=5).contains(&station.open().len())) else {
            continue;
        };
        let page = walk::page("file", &Walk::new(&file, &station).expect("few are open"), None);
        let tags = xml(&page).unwrap_or_else(|failure| panic!("file {index}: {failure}"));
        names_are_there(&page, &tags, &format!("file {index}"));
        assert!(!page.contains("NaN") && !page.contains("inf"), "file {index}");
        let states: BTreeSet<&str> = data(&page, "frames").trim_matches('"').split(' ').collect();
        assert_eq!(states.len(), 1 << station.open().len(), "file {index}");
        seen += 1;
    }
    assert!(seen > 30, "{seen}");
}

/// Twelve open turnouts in a row, each with two ways that join again: of 4,096 frames no two have the same path, and still the page is small.
#[test]
fn a_page_of_all_4096_frames_stays_small() {
    let line = |letter: char, fields: &[usize]| {
        let fields: String = (0..4).map(|place| fields.get(place).map_or(String::from("     "), |field| format!("{field:>5}"))).collect();
        format!("{letter}{fields}\n")
    };
    let mut file = line('S', &[38, 25, 12, 2]);
    let stems = (0..12).map(|turnout| 1 + 3 * turnout);
    stems.clone().for_each(|stem| file += &(line('P', &[stem + 1, stem + 3]) + &line('P', &[stem + 2, stem + 3])));
    file += &line('P', &[38, 37]);
    stems.for_each(|stem| file += &line('D', &[stem, stem + 1, stem + 2, 0]));
    file += &(line('T', &[1]) + &line('T', &[38]));
    let (page, err, status) = told(&station_with(&["page", "--frames", "-"], file.as_bytes()));
    assert_eq!((err.as_str(), status), ("", 0));
    let tags = xml(&page).unwrap_or_else(|failure| panic!("{failure}"));
    names_are_there(&page, &tags, "4,096 frames");
    let count = |name: &str, between: char| data(&page, name).split(between).collect::<BTreeSet<_>>().len();
    assert_eq!((count("frames", ' '), count("verdicts", ',')), (4096, 4096));
    assert!(page.len() < 600_000, "{} bytes", page.len());
}

#[test]
fn a_refused_file_has_no_frames() {
    let thirteen: String = std::iter::once(String::from("S   14    0   13    0\n"))
        .chain((1..=13).map(|number| format!("L{number:>5}{:>5}    0     \n", number + 1)))
        .collect();
    for (file, refusal) in [(thirteen.as_bytes(), "Refusal 11, line 14."), (&read("stations/points-twice.txt"), "Refusal 8, line 7.")] {
        let (out, err, status) = told(&station_with(&["page", "--frames", "-"], file));
        assert_eq!((out.as_str(), status), ("", 1));
        assert!(err.contains(refusal), "{err}");
    }
    let (out, err, status) = told(&station(&["page", "--frames", "stations/K.txt", "stations/K6.txt"]));
    assert_eq!((out.as_str(), status), ("", 2));
    assert!(err.contains("one FILE is wanted"), "{err}");
}

/// Presses the buttons, and writes down after each what the page shows: what was pressed, the frame, the states that are drawn, the small words of the verdict,
/// how many steps of paths are drawn.
const PRESSES: &str = "
const log = [];
function note(pressed) {
    const drawn = walk.open.map(([number]) => ['1', '2'].filter((s) => {
        const groups = Array.from(stage.querySelectorAll('g[style*=\"--e' + number + 's' + s + ')\"]'));
        return groups.length > 0 ? groups.every((group) => getComputedStyle(group).display !== 'none') : false;
    }).join('+')).join('');
    const boxes = Array.from(document.querySelectorAll('#paths path, #meeting use, #letters use'));
    const visible = boxes.every((use) => use.getBoundingClientRect().width > 0);
    log.push([pressed, part('number').value, part('slide').value, drawn, part('verdict').textContent, part('paths').children.length, visible,
        document.querySelectorAll('#states li.changed').length].join('|'));
}
function press_button(id) { part(id).click(); note(id); }
note('start');
frames.forEach(() => press_button('on'));
press_button('back');
press_button('last');
press_button('first');
press_button('safe');
part('slide').value = count - 1;
part('slide').dispatchEvent(new Event('input'));
note('slide');
part('number').value = 1;
part('number').dispatchEvent(new Event('change'));
note('number');
document.dispatchEvent(new KeyboardEvent('keydown', { key: 'ArrowLeft' }));
note('key');
window.dispatchEvent(new Event('beforeprint'));
const pictures = Array.from(document.querySelectorAll('#sheet figure'));
log.push(['sheet', pictures.length, ...pictures.slice(0, 3).map((figure) => figure.textContent)].join('|'));
window.dispatchEvent(new Event('afterprint'));
press_button('play');
setTimeout(() => {
    note('played');
    press_button('play');
    const here = part('number').value;
    setTimeout(() => {
        log.push('stopped|' + (here === part('number').value));
        document.body.replaceChildren();
        document.body.textContent = 'LOG' + log.join('LINE') + 'END';
    }, 5000);
}, 5000);
";

/// What a page says after a script was run in it; none where there is no Chromium.
fn run(page: &str, script: &str) -> Option<String> {
    let chromium =
        ["/usr/bin/chromium", "/usr/bin/chromium-browser", "/usr/bin/google-chrome"].into_iter().find(|name| Path::new(name).exists())?;
    let folder = std::env::temp_dir().join(format!("station-walk-{}", std::process::id()));
    std::fs::create_dir_all(&folder).expect("a folder");
    let file = folder.join("page.html");
    std::fs::write(&file, page.replace("</body>", &format!("<script>{script}</script>\n</body>"))).expect("the page can be written");
    let output = Command::new(chromium)
        .args(["--headless", "--no-sandbox", "--disable-gpu", "--virtual-time-budget=60000", "--dump-dom"])
        .arg(format!("--user-data-dir={}", folder.join("profile").display()))
        .arg(format!("file://{}", file.display()))
        .current_dir(root())
        .output()
        .expect("Chromium runs");
    let _ = std::fs::remove_dir_all(&folder);
    Some(String::from_utf8_lossy(&output.stdout).into_owned())
}

#[test]
fn the_buttons_do_what_they_say() {
    let name = "stations/K6.txt";
    let Some(dom) = run(&page(name), PRESSES) else {
        eprintln!("no Chromium here: the buttons are not pressed");
        return;
    };
    let text = dom.split_once("LOG").and_then(|(_, rest)| rest.split_once("END")).unwrap_or_else(|| panic!("no log: {dom}")).0;
    let log: Vec<Vec<&str>> = text.split("LINE").map(|line| line.split('|').collect()).collect();
    let frames = frames(name);
    let count = frames.len();
    // What is shown of each frame, however it was come to.
    for line in log.iter().filter(|line| line.len() == 8) {
        let frame: usize = line[1].parse().expect("a frame");
        let (states, verdict) = &frames[frame];
        assert_eq!((line[2], line[3]), (line[1], states.as_str()), "{line:?}");
        assert!(line[4].contains(&format!("Frame {frame}: ")), "{line:?}");
        assert_eq!(line[4].starts_with("safe"), verdict == "safe", "{line:?}");
        assert_eq!(line[5] != "0", verdict != "safe", "{line:?}");
        assert_eq!(line[6], "true", "{line:?}");
    }
    let come: Vec<(&str, usize)> =
        log.iter().filter(|line| line.len() == 8).map(|line| (line[0], line[1].parse().expect("a frame"))).collect();
    let mut wanted = vec![("start", 0)];
    wanted.extend((1..=count).map(|frame| ("on", frame % count)));
    let first_safe = frames.iter().skip(1).position(|(_, verdict)| verdict == "safe").expect("a safe frame") + 1;
    wanted.extend([
        ("back", count - 1),
        ("last", count - 1),
        ("first", 0),
        ("safe", first_safe),
        ("slide", count - 1),
        ("number", 1),
        ("key", 0),
        ("play", 0),
    ]);
    assert_eq!(come[..wanted.len()], wanted);
    // One element changes with each press of Forward.
    assert!(log.iter().filter(|line| line[0] == "on").all(|line| line[7] == "1"));
    // Five seconds at a frame each second and a half.
    assert_eq!(come[wanted.len()..], [("played", 3), ("play", 3)]);
    assert_eq!(log.last(), Some(&vec!["stopped", "true"]));
    let sheet = log.iter().find(|line| line[0] == "sheet").expect("a sheet");
    assert_eq!(sheet[1..], ["16", "Frame 0, 1111: dangerous, 1 and 2 meet in 5", "Frame 1, 1112: safe", "Frame 2, 1122: safe"]);
}
