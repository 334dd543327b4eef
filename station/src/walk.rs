//! A walk through all settings of a file, one element at a time (02, Item 11), as a page that steps through its frames and prints as a sheet of small
//! pictures. Frames and verdicts are the library's. The page has one script of its own, and loads nothing.

use std::collections::HashMap;
use std::fmt::Write;

use judge::{Refusal, State};

use crate::ask::{self, Danger};
use crate::doc::Outcome;
use crate::layout::curve::Point;
use crate::model::{Station, counted, grouped, in_a_row, sort, word};
use crate::page::{self, badge};
use crate::picture::Picture;
use crate::picture::markup::escaped;
use crate::picture::paths::Paths;

/// All frames with their verdicts.
pub struct Walk {
    pub station: Station,
    /// The numbers of the open elements.
    pub open: Vec<usize>,
    pub frames: Vec<Frame>,
    /// The dangers of the frames, each once.
    pub dangers: Vec<Danger>,
}

/// A frame: the states of all elements, and the place of its danger; none where it is safe.
pub struct Frame {
    pub states: Vec<State>,
    pub danger: Option<usize>,
}

impl Walk {
    /// Asks the library for each frame and its verdict. Refusal 11 where too many elements are open.
    pub fn new(file: &[u8], station: &Station) -> Result<Walk, Refusal> {
        ask::frame(file, 0)?;
        let open = station.open();
        let mut walk = Walk { station: station.clone(), open, frames: vec![], dangers: vec![] };
        let mut known: HashMap<Danger, usize> = HashMap::new();
        for number in 0..1 << walk.open.len() {
            let states = ask::frame(file, number)?;
            let danger = ask::verdict_under(station, &states)?.danger;
            let danger = danger.map(|danger| {
                *known.entry(danger).or_insert_with_key(|danger| {
                    walk.dangers.push(danger.clone());
                    walk.dangers.len() - 1
                })
            });
            walk.frames.push(Frame { states, danger });
        }
        Ok(walk)
    }

    fn safe(&self) -> usize {
        self.frames.iter().filter(|frame| frame.danger.is_none()).count()
    }

    /// The values of the properties that show a frame.
    fn properties(&self, frame: &Frame) -> String {
        let mut text = String::new();
        for &number in &self.open {
            for state in [State::One, State::Two] {
                let shown = if frame.states.get(number - 1) == Some(&state) { "inline" } else { "none" };
                let _ = write!(text, "--e{number}s{state}:{shown};");
            }
        }
        text
    }

    /// All that the script goes by: the open elements with the words of their states; of each frame the states and the place of its danger, or -1; of each
    /// danger its trains, the section where they meet, and the places of its paths; the paths.
    fn data(&self) -> String {
        let mut paths: Vec<String> = Vec::new();
        let mut known: HashMap<String, usize> = HashMap::new();
        let mut place = |path: String| {
            *known.entry(path).or_insert_with_key(|path| {
                paths.push(path.clone());
                paths.len() - 1
            })
        };
        let dangers: Vec<String> = self
            .dangers
            .iter()
            .map(|danger| {
                let [one, two] = [&danger.paths[0], &danger.paths[1]].map(|path| place(in_a_row(path)));
                format!("[{},{},{},{one},{two}]", danger.trains[0], danger.trains[1], danger.meeting)
            })
            .collect();
        let open: Vec<String> = self
            .open
            .iter()
            .map(|&number| {
                let element = &self.station.filed.elements[number - 1];
                let [one, two] = [State::One, State::Two].map(|state| word(element, state));
                format!("[{number},\"{} {number}\",\"{one}\",\"{two}\"]", sort(element))
            })
            .collect();
        let states = |frame: &Frame| -> String { self.open.iter().map(|&number| frame.states[number - 1].to_string()).collect() };
        let frames: Vec<String> = self.frames.iter().map(states).collect();
        let verdicts: Vec<String> =
            self.frames.iter().map(|frame| frame.danger.map_or(String::from("-1"), |danger| danger.to_string())).collect();
        format!(
            "{{\"open\":[{}],\n\"frames\":\"{}\",\n\"verdicts\":[{}],\n\"dangers\":[{}],\n\"paths\":[{}]}}",
            open.join(","),
            frames.join(" "),
            verdicts.join(","),
            dangers.join(","),
            paths.iter().map(|path| format!("\"{path}\"")).collect::<Vec<_>>().join(",")
        )
    }
}

/// How many small pictures a printed sheet has at most; of longer walks it has those about the frame that is shown. Of a large station there are fewer, so
/// that a browser makes them in a few seconds.
fn most_printed(station: &Station) -> usize {
    const LARGE: usize = 128;
    if station.sections() > LARGE { 16 } else { 64 }
}

const SCRIPT: &str = include_str!("walk.js");

const WALK_STYLE: &str = "\
.controls{display:flex;flex-wrap:wrap;gap:8px 10px;align-items:center;margin:0 0 12px}\
.controls button,.controls input,.controls select{font:inherit}\
.controls button{padding:4px 12px;min-width:5.5em;border:1px solid #8a96a3;border-radius:6px;background:#f6f8fa;cursor:pointer}\
.controls button:hover{background:#e6ebf0}\
.controls button[aria-pressed=true]{background:#1b2530;color:#fff}\
.controls input[type=range]{flex:1 1 200px}\
.controls input[type=number]{width:5.5em}\
#states{list-style:none;display:flex;flex-wrap:wrap;gap:4px 8px;padding:0;margin:10px 0}\
#states li{border:2px solid #d5dbe1;border-radius:6px;padding:0 8px}\
#states li.changed{border-color:#1b2530;font-weight:700}\
#verdict{min-height:3.2em;overflow-wrap:anywhere}\
#sheet{display:none}\
#sheet figure{border:1px solid #8a96a3;margin:0;break-inside:avoid}\
#sheet figcaption{padding:1px 6px;font-size:8.5pt;font-weight:400}\
#sheet svg{width:100%;height:auto}\
@media print{\
@page{size:A4 landscape;margin:10mm}\
.controls,.stage,#states,#verdict,noscript{display:none}\
#sheet{display:grid;grid-template-columns:repeat(auto-fill,minmax(var(--small,60mm),1fr));gap:3mm}\
h1{margin:0;font-size:14pt}\
}\
";

/// The page.
pub fn page(name: &str, walk: &Walk, positions: Option<&[Point]>) -> String {
    let paths: Vec<Paths> = walk.dangers.iter().map(|danger| Paths::of_danger(&walk.station, danger)).collect();
    let picture = Picture {
        station: &walk.station,
        paths: None,
        walk: Some(&paths),
        keeping: &[],
        title: String::new(),
        subtitle: String::new(),
        prefix: String::new(),
        alone: false,
        positions,
    };
    let parts = picture.parts();
    let count = walk.frames.len();
    let title = format!("{name}: {}", counted(count, "frame"));
    let mut text = page::head(&title, &format!("{}{WALK_STYLE}", page::PAGE_STYLE), "script-src 'unsafe-inline'; ");
    let _ = writeln!(
        text,
        "<header>\n<h1>{}</h1>\n<p class=\"lead\">{}. {} of {} safe. From each frame to the next one open element changes.</p>\n</header>",
        escaped(&title),
        walk.station.counts(),
        grouped(walk.safe()),
        counted(count, "frame")
    );
    let last = count - 1;
    let buttons = [("first", "First"), ("back", "Back"), ("play", "Play"), ("on", "Forward"), ("last", "Last"), ("safe", "Next safe")];
    let buttons: String = buttons.iter().map(|(id, words)| format!("<button type=\"button\" id=\"{id}\">{words}</button>\n")).collect();
    let _ = writeln!(
        text,
        "<main>\n<article>\n<div class=\"controls\">\n{buttons}<label>Frame <input id=\"number\" type=\"number\" min=\"0\" max=\"{last}\" value=\"0\"/></label> of 0 to {}\n\
         <input id=\"slide\" type=\"range\" min=\"0\" max=\"{last}\" value=\"0\" aria-label=\"Frame\"/>\n\
         <label>Pace <select id=\"pace\"><option value=\"3000\">slow</option><option value=\"1500\" selected=\"selected\">medium</option><option value=\"500\">fast</option></select></label>\n</div>",
        grouped(last)
    );
    text += "<noscript><p>The buttons need scripts, which are switched off here: this is frame 0.</p></noscript>\n";
    let _ = writeln!(text, "<ul id=\"states\"></ul>\n<p id=\"verdict\" aria-live=\"polite\"></p>");
    let frame = walk.frames.first().map_or(String::new(), |frame| walk.properties(frame));
    let stage = parts.stage(&title, &frame);
    let large = page::large(&stage);
    let _ = writeln!(text, "<figure class=\"stage{}\"{}>\n{stage}</figure>\n<figure>\n{}</figure>", large.0, large.1, parts.legend);
    let _ = writeln!(text, "<p id=\"printed\"></p>\n<div id=\"sheet\"></div>\n</article>\n</main>");
    let badges: String = [("is-safe", Outcome::Safe), ("is-dangerous", Outcome::Dangerous)]
        .map(|(id, outcome)| format!("<template id=\"{id}\">{}</template>\n", badge(outcome)))
        .concat();
    let _ = writeln!(
        text,
        "{badges}<script type=\"application/json\" id=\"walk\">{}</script>\n<script>\nconst MOST_PRINTED = {};\n{SCRIPT}</script>\n{}",
        walk.data(),
        most_printed(&walk.station),
        page::END
    );
    text
}
