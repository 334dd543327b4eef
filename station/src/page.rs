//! One page with picture, words and key of each file. It holds all it needs: no script, nothing loaded from elsewhere.

use std::fmt::Write;

use crate::appeal::appeal;
use crate::args::Look;
use crate::ask::Answer;
use crate::doc::{Outcome, Part, Quote, Table, Words};
use crate::layout::curve::Point;
use crate::model::counted;
use crate::picture::markup::escaped;
use crate::picture::style::STYLE;
use crate::{DONE, shown, what_if, words};

/// A file on the page.
pub struct Entry {
    pub name: String,
    pub words: Words,
    /// Pictures as SVG, with what is written above them; none where the file was refused by the reader.
    pub pictures: Vec<(String, String)>,
    pub key: String,
}

impl Entry {
    /// The file with a number on the page, as it is looked at, with the status that an appeal ends with; or what was asked for that the file does not have.
    pub fn new(
        name: &str,
        number: usize,
        answer: &Answer,
        file: &[u8],
        look: &Look,
        positions: Option<&[Point]>,
    ) -> Result<(Entry, u8), String> {
        let mut words = words::of_answer(answer, file);
        let (views, status) = match appeal(answer, file, look)? {
            Some(appeal) => {
                words.parts.splice(0..0, appeal.parts);
                (appeal.views, appeal.status)
            }
            None => (shown::view(answer).map(|view| (String::new(), view)).into_iter().collect(), DONE),
        };
        let mut pictures = Vec::new();
        for (place, (caption, view)) in views.into_iter().enumerate() {
            let view = if look.what_if { shown::with_keeping(view) } else { view };
            let letter = if place == 0 { String::new() } else { format!("-{place}") };
            pictures.push((caption, view.draw(name, &format!("p{number}{letter}-"), false, positions)));
        }
        if look.what_if
            && let Some(station) = shown::station_of(answer, look)
        {
            words.parts.extend(what_if::parts(&station));
        }
        Ok((Entry { name: String::from(name), words, pictures, key: judge::key_text(file) }, status))
    }
}

pub const PAGE_STYLE: &str = "\
:root{color-scheme:light}\
*{box-sizing:border-box}\
body{margin:0;background:#f3f5f7;color:#1b2530;font:16px/1.5 'Segoe UI',Helvetica,Arial,'Liberation Sans','DejaVu Sans',sans-serif}\
header,main,footer{max-width:1500px;margin:0 auto;padding:0 20px}\
h1{font-size:1.7rem;line-height:1.2;margin:28px 0 4px}\
h2{font-size:1.3rem;line-height:1.3;margin:0 0 4px;overflow-wrap:anywhere}\
h3{font-size:1rem;margin:18px 0 4px}\
p{margin:4px 0}\
.lead{color:#46525e;max-width:70ch}\
article{background:#fff;border:1px solid #d5dbe1;border-radius:10px;padding:22px 24px;margin:22px 0}\
.summary{font-size:1.08rem;margin-bottom:12px}\
.badge{display:inline-block;border:2px solid;border-radius:6px;padding:0 9px;font-size:.85rem;font-weight:700;line-height:1.6;vertical-align:middle;white-space:nowrap}\
.refused{color:#46525e;border-style:dashed}\
.dangerous{color:#a51616}\
.safe{color:#11652d}\
.open{color:#0a4c9c;border-style:dotted}\
.none{color:#a51616;border-style:dotted}\
figure{margin:0 0 14px;overflow:auto;border:1px solid #e3e7eb;border-radius:8px}\
figure svg{display:block;max-width:100%;height:auto;margin:0 auto}\
figure.large{max-height:85vh}\
figcaption{padding:8px 12px;font-weight:600}\
.beside{display:grid;grid-template-columns:repeat(auto-fit,minmax(min(100%,540px),1fr));gap:0 14px}\
figure.large svg{max-width:none}\
.columns{display:grid;grid-template-columns:minmax(0,1fr) max-content;gap:8px 40px;align-items:start}\
.columns>div{min-width:0}\
ul,ol{margin:4px 0;padding-left:1.3em}\
.matrix{list-style:none;padding:0}\
table{border-collapse:collapse;margin:6px 0;font-size:.95rem}\
th,td{text-align:left;vertical-align:top;padding:2px 16px 2px 0;border-bottom:1px solid #e3e7eb}\
th{font-weight:600;color:#46525e}\
.number{text-align:right}\
.scroll{overflow-x:auto}\
.scroll td,.scroll th{white-space:nowrap}\
.scroll td:last-child{white-space:normal;min-width:11em}\
pre{margin:4px 0;font:13.5px/1.4 Consolas,Menlo,'DejaVu Sans Mono','Liberation Mono',monospace;overflow-x:auto}\
.key pre,.quote{background:#f6f8fa;border:1px solid #e3e7eb;border-radius:6px;padding:8px 12px}\
.key pre{max-height:34em;overflow:auto}\
mark{background:#ffe08a;color:inherit}\
nav table{width:100%;background:#fff;border:1px solid #d5dbe1;border-radius:10px;border-collapse:separate;border-spacing:0;padding:6px 14px}\
nav td{padding:5px 16px 5px 0}\
nav tr:last-child td{border-bottom:0}\
a{color:#0a4c9c}\
footer{color:#46525e;font-size:.9rem;padding-bottom:30px}\
.words h3:first-child,.key h3{margin-top:0}\
@media(min-width:1100px){\
.words.two{columns:2;column-gap:40px}\
h3{break-after:avoid}\
li,.scroll,.quote{break-inside:avoid}\
}\
@media(max-width:760px){\
body{font-size:15px}\
header,main,footer{padding:0 10px}\
article{padding:14px 12px;border-radius:8px}\
.columns{grid-template-columns:minmax(0,1fr)}\
nav td:nth-child(3){display:none}\
figure svg{max-width:none}\
}\
@media print{\
@page{size:A4;margin:14mm}\
@page across{size:A4 landscape;margin:12mm}\
article.across,body:has(article.across:only-of-type){page:across}\
article.across .words.two{columns:2;column-gap:24px}\
footer{display:none}\
body{background:#fff;font-size:10.5pt;line-height:1.35}\
header,main,footer{max-width:none;padding:0}\
article{border:0;padding:0;margin:0;break-before:page}\
article:first-child:last-child{break-before:auto}\
figure,figure.large{overflow:visible;max-height:none;break-inside:avoid}\
figure svg,figure.large svg{max-width:100%;max-height:165mm}\
.beside{grid-template-columns:1fr 1fr}\
.columns{grid-template-columns:minmax(0,1fr) max-content;gap:4px 24px}\
nav td:nth-child(3){display:table-cell}\
.scroll{overflow:visible}\
.columns.long{display:block}\
.key{break-inside:avoid}\
.key pre{max-height:none;overflow:visible;font-size:8.5pt}\
.long .key{margin-top:12px}\
.long .key pre{columns:21ch;column-gap:4ch}\
h2,h3{break-after:avoid}\
table,li,.quote{break-inside:avoid}\
a{color:inherit;text-decoration:none}\
mark{background:none;font-weight:700;text-decoration:underline}\
*{-webkit-print-color-adjust:exact;print-color-adjust:exact}\
}\
";

/// Pictures above this width are shown at full size, in a frame that can be moved.
const LARGE: f64 = 2400.0;
/// Pictures above this width are printed across the paper.
const ACROSS: f64 = 1000.0;
/// Keys with more lines than this are printed below the words, in columns, so that a page has room for the whole key.
const LONG_KEY: usize = 20;

/// The page.
pub fn page(entries: &[Entry]) -> String {
    let title = match entries {
        [one] => one.name.clone(),
        _ => counted(entries.len(), "station"),
    };
    let mut text = head(&title, PAGE_STYLE, "");
    let _ = writeln!(
        text,
        "<header>\n<h1>{}</h1>\n<p class=\"lead\">What the station judge says, with a picture and in words. The key is the judge's own answer; all else is a reader's view of it.</p>",
        escaped(&title)
    );
    if entries.len() > 1 {
        text += "<nav aria-label=\"Stations\">\n<table>\n";
        for (number, entry) in entries.iter().enumerate() {
            let _ = writeln!(
                text,
                "<tr><td><a href=\"#station-{}\">{}</a></td><td>{}</td><td>{}</td></tr>",
                number + 1,
                escaped(&entry.name),
                badge(entry.words.outcome),
                escaped(&entry.words.summary)
            );
        }
        text += "</table>\n</nav>\n";
    }
    text += "</header>\n<main>\n";
    for (number, entry) in entries.iter().enumerate() {
        text += &article(number + 1, entry);
    }
    text += "</main>\n";
    text += END;
    text
}

/// The start of a page that loads nothing, and runs no script but where `allowed` says so.
pub fn head(title: &str, style: &str, allowed: &str) -> String {
    let mut text = String::from("<!DOCTYPE html>\n<html lang=\"en\">\n<head>\n<meta charset=\"utf-8\"/>\n");
    text += "<meta name=\"viewport\" content=\"width=device-width, initial-scale=1\"/>\n";
    let _ =
        writeln!(text, "<meta http-equiv=\"Content-Security-Policy\" content=\"default-src 'none'; {allowed}style-src 'unsafe-inline'\"/>");
    let _ = writeln!(text, "<title>{}</title>\n<style>{style}{STYLE}</style>\n</head>\n<body>", escaped(title));
    text
}

/// The end of a page.
pub const END: &str = "<footer><p>Made by <code>station page</code>.</p></footer>\n</body>\n</html>\n";

pub fn badge(outcome: Outcome) -> String {
    let class = match outcome {
        Outcome::Refused => "refused",
        Outcome::Dangerous => "dangerous",
        Outcome::Safe => "safe",
        Outcome::Open | Outcome::CanBeSafe => "open",
        Outcome::NoneSafe | Outcome::CannotBeSafe => "none",
    };
    format!("<span class=\"badge {class}\">{}</span>", outcome.word())
}

fn article(number: usize, entry: &Entry) -> String {
    let widest = entry.pictures.iter().map(|(_, picture)| width(picture)).fold(0.0, f64::max);
    let across = if widest > ACROSS || entry.pictures.len() > 1 { " class=\"across\"" } else { "" };
    let mut text = format!(
        "<article id=\"station-{number}\"{across}>\n<h2>{} {}</h2>\n<p class=\"summary\">{}</p>\n",
        escaped(&entry.name),
        badge(entry.words.outcome),
        escaped(&entry.words.summary)
    );
    let beside = entry.pictures.len() > 1;
    if beside {
        text += "<div class=\"beside\">\n";
    }
    for (caption, picture) in &entry.pictures {
        let (class, more) = large(picture);
        let caption = if caption.is_empty() { String::new() } else { format!("<figcaption>{}</figcaption>\n", escaped(caption)) };
        let _ = writeln!(text, "<figure class=\"picture{class}\"{more}>\n{caption}{picture}</figure>");
    }
    if beside {
        text += "</div>\n";
    }
    // In two columns where there is much to say, and no wide table that needs the whole width.
    let is_wide = |part: &Part| matches!(part, Part::Table(table) if table.headings.len() > 4);
    let headings = entry.words.parts.iter().filter(|part| matches!(part, Part::Heading(_))).count();
    let two = if headings < 3 || entry.words.parts.iter().any(is_wide) { "" } else { " two" };
    let long = if entry.key.lines().count() > LONG_KEY { " long" } else { "" };
    let _ = writeln!(text, "<div class=\"columns{long}\">\n<div class=\"words{two}\">");
    for part in &entry.words.parts {
        text += &html(part);
    }
    let _ = writeln!(text, "</div>\n<div class=\"key\">\n<h3>Key</h3>\n<pre>{}</pre>\n</div>\n</div>\n</article>", escaped(&entry.key));
    text
}

/// The class of a picture that is shown at full size, and what makes its frame one that can be moved; nothing of a smaller one.
pub fn large(picture: &str) -> (&'static str, &'static str) {
    if width(picture) > LARGE { (" large", " tabindex=\"0\"") } else { ("", "") }
}

/// The width that a picture says it has.
fn width(picture: &str) -> f64 {
    let after = picture.split_once(" width=\"").map_or("", |(_, after)| after);
    after.split('"').next().and_then(|number| number.parse().ok()).unwrap_or(0.0)
}

fn html(part: &Part) -> String {
    match part {
        Part::Heading(heading) => format!("<h3>{}</h3>\n", escaped(heading)),
        Part::Text(sentence) => format!("<p>{}</p>\n", escaped(sentence)),
        Part::List(lines) => {
            let items: String = lines.iter().map(|line| format!("<li>{}</li>\n", escaped(line))).collect();
            format!("<ul>\n{items}</ul>\n")
        }
        Part::Table(table) => html_table(table),
        Part::Quote(quote) => html_quote(quote),
    }
}

fn html_table(table: &Table) -> String {
    let class = |column: usize| if table.is_number(column) { " class=\"number\"" } else { "" };
    let mut text = String::from("<div class=\"scroll\"><table>\n<thead><tr>");
    for (column, heading) in table.headings.iter().enumerate() {
        let _ = write!(text, "<th scope=\"col\"{}>{}</th>", class(column), escaped(heading));
    }
    text += "</tr></thead>\n<tbody>\n";
    for row in &table.rows {
        text += "<tr>";
        for (column, cell) in row.iter().enumerate() {
            let _ = write!(text, "<td{}>{}</td>", class(column), escaped(cell));
        }
        text += "</tr>\n";
    }
    text += "</tbody></table></div>\n";
    text
}

/// The quoted line with its marked columns, and the marks below it, so that they show without colour too.
fn html_quote(quote: &Quote) -> String {
    let lead = format!("line {}: ", quote.line);
    let marked = |column: usize| quote.marks.iter().any(|mark| mark.contains(&column));
    let mut line = String::new();
    let mut inside = false;
    for (column, c) in quote.text.chars().enumerate() {
        if marked(column) != inside {
            inside = !inside;
            line += if inside { "<mark>" } else { "</mark>" };
        }
        line += &escaped(&c.to_string());
    }
    if inside {
        line += "</mark>";
    }
    format!("<pre class=\"quote\">{lead}{line}\n{}{}</pre>\n", " ".repeat(lead.len()), quote.marks_line())
}

#[cfg(test)]
mod tests {
    use super::*;

    #[test]
    fn nothing_is_loaded_and_nothing_runs() {
        let words = Words { outcome: Outcome::Safe, summary: String::from("Safe."), parts: vec![] };
        let text = page(&[Entry { name: String::from("<script>.txt"), words, pictures: vec![], key: String::from("V\n") }]);
        assert!(!text.contains("<script"));
        assert!(!text.contains("src=") && !text.contains("@import") && !text.contains("url("));
        assert!(text.contains("&lt;script&gt;.txt"));
    }

    /// A browser that prints then breaks no key over two pages: a short one is kept together, a long one set in columns.
    #[test]
    fn a_key_is_kept_on_a_page() {
        let words = || Words { outcome: Outcome::Safe, summary: String::new(), parts: vec![] };
        let article = |key: String| article(1, &Entry { name: String::from("K"), words: words(), pictures: vec![], key });
        assert!(article("E\n".repeat(20)).contains("<div class=\"columns\">"));
        assert!(article("E\n".repeat(21)).contains("<div class=\"columns long\">"));
        let print = PAGE_STYLE.split("@media print{").nth(1).expect("a style for print");
        assert!(print.contains(".key{break-inside:avoid}") && print.contains(".long .key pre{columns:"));
    }

    #[test]
    fn marks_are_in_the_text_and_below_it() {
        let mark = 6..11;
        let quote = Quote { line: 2, text: String::from("P    1    9"), marks: vec![mark] };
        assert_eq!(html_quote(&quote), "<pre class=\"quote\">line 2: P    1<mark>    9</mark>\n              ^^^^^</pre>\n");
    }
}
