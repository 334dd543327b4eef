//! Lists of marks: text with four numbers a line, or a table that a spreadsheet saved.

use std::ops::Range;

use judge::{Mark, Refusal};

use crate::cause::Shown;
use crate::doc::{Outcome, Part, Quote, Words};
use crate::encoding;
use crate::model::counted;

/// A mark record with the line of text that it stands in and the columns of its numbers.
#[derive(Clone, Debug, PartialEq, Eq)]
pub struct Record {
    pub mark: Mark,
    line: usize,
    text: String,
    columns: Vec<Range<usize>>,
}

/// What the numbers of a mark are called.
const NAMES: [&str; 4] = ["candidate", "question", "gained", "possible"];

/// A field of a line with its columns, counted from 0.
#[derive(Clone, Debug, PartialEq, Eq)]
struct Field {
    text: String,
    columns: Range<usize>,
}

impl Field {
    /// A number that no record can hold is out of every range, as the highest that one can hold is.
    fn number(&self) -> Option<u16> {
        let digits = !self.text.is_empty() && self.text.bytes().all(|byte| byte.is_ascii_digit());
        digits.then(|| self.text.parse().unwrap_or(u16::MAX))
    }
}

/// Where the four numbers of a line stand.
#[derive(Clone, Debug, PartialEq, Eq)]
struct Plan {
    /// What stands between two fields; none where it is spaces, tabs, commas or semicolons, as many as there are.
    between: Option<char>,
    /// The places of the four; none where a line has these and no more.
    places: Option<[usize; 4]>,
}

/// What is wrong with a line: the fields that are marked, and words.
type Wrong = (Vec<Range<usize>>, String);

/// Reads a list of marks.
pub fn records(bytes: &[u8]) -> Result<Vec<Record>, Words> {
    if let Some(note) = encoding::of_text(bytes) {
        let mut words = Words { outcome: Outcome::Refused, summary: String::from("Not a list of marks."), parts: vec![] };
        words.text(note);
        return Err(words);
    }
    let text = String::from_utf8_lossy(bytes);
    let mut records = Vec::new();
    let mut plan: Option<Plan> = None;
    for (place, line) in text.trim_start_matches('\u{feff}').lines().enumerate() {
        if line.starts_with('#') || line.chars().all(is_between) {
            continue;
        }
        let shown: String = line.chars().map(|c| if c.is_control() { ' ' } else { c }).collect();
        let wrong = |(marks, note): Wrong| {
            let mut words =
                Words { outcome: Outcome::Refused, summary: format!("Not a list of marks, line {}.", place + 1), parts: vec![] };
            words.parts.push(Part::Quote(Quote { line: place + 1, text: shown.clone(), marks }));
            words.text(note);
            words
        };
        let Some(plan) = &plan else {
            if let Some(heading) = heading(line).map_err(&wrong)? {
                plan = Some(heading);
                continue;
            }
            let found = plan.insert(Plan { between: None, places: None });
            records.push(record(found, line, place + 1, &shown).map_err(&wrong)?);
            continue;
        };
        records.push(record(plan, line, place + 1, &shown).map_err(&wrong)?);
    }
    Ok(records)
}

/// The plan that a first line gives; none where it has a number and is no heading.
fn heading(line: &str) -> Result<Option<Plan>, Wrong> {
    let between = [';', '\t', ','].into_iter().find(|&c| split(line, Some(c)).is_ok_and(|fields| fields.len() > 1));
    let fields = split(line, between)?;
    if fields.iter().any(|field| field.number().is_some()) {
        return Ok(None);
    }
    let texts: Vec<String> = fields.iter().map(|field| field.text.to_lowercase()).collect();
    let place_of = |name: &str| {
        let holds = |text: &&String| text.split(|c: char| !c.is_alphanumeric()).any(|word| word == name);
        let places: Vec<usize> = (0..texts.len()).filter(|&place| holds(&&texts[place])).collect();
        texts.iter().position(|text| text == name).or(if let [one] = places[..] { Some(one) } else { None })
    };
    let places = NAMES.map(place_of);
    match places {
        [Some(a), Some(b), Some(c), Some(d)] => Ok(Some(Plan { between, places: Some([a, b, c, d]) })),
        [None, None, None, None] if fields.len() == 4 => Ok(Some(Plan { between, places: None })),
        _ => {
            let missing: Vec<&str> = NAMES.iter().zip(places).filter(|(_, place)| place.is_none()).map(|(name, _)| *name).collect();
            let note =
                format!("A line without a number is a heading, and this one does not name one column {}.", missing.join(", nor one "));
            Err((fields.into_iter().map(|field| field.columns).collect(), note))
        }
    }
}

fn record(plan: &Plan, line: &str, number: usize, shown: &str) -> Result<Record, Wrong> {
    let mut fields = split(line, plan.between)?;
    if let Some(places) = plan.places {
        let picked: Option<Vec<Field>> = places.iter().map(|&place| fields.get(place).cloned()).collect();
        let short =
            (fields.iter().map(|field| field.columns.clone()).collect(), String::from("The line has fewer columns than the heading."));
        fields = picked.ok_or(short)?;
    }
    if let Some(field) = fields.iter().find(|field| field.number().is_none()) {
        let note = if field.text.is_empty() { "There is no number here." } else { "This is no number." };
        return Err((vec![field.columns.clone()], String::from(note)));
    }
    let numbers: Vec<u16> = fields.iter().filter_map(Field::number).collect();
    let columns: Vec<Range<usize>> = fields.into_iter().map(|field| field.columns).collect();
    let &[candidate, question, gained, possible] = numbers.as_slice() else {
        let note = format!("A line has four numbers ({}), and this one has {}.", NAMES.join(", "), numbers.len());
        return Err((columns, note));
    };
    Ok(Record { mark: Mark { candidate, question, gained, possible }, line: number, text: String::from(shown), columns })
}

fn is_between(c: char) -> bool {
    matches!(c, ' ' | '\t' | ',' | ';' | '\r')
}

/// The fields of a line. A field may stand in quotes, with two for one inside them.
fn split(line: &str, between: Option<char>) -> Result<Vec<Field>, Wrong> {
    let ends = |c: char| between.map_or(is_between(c), |between| c == between);
    let mut fields: Vec<Field> = Vec::new();
    let mut letters = line.trim_end_matches('\r').chars().enumerate().peekable();
    loop {
        let skipped = |c: char| if between.is_some() { c == ' ' } else { is_between(c) };
        while letters.next_if(|&(_, c)| skipped(c)).is_some() {}
        let Some(&(start, first)) = letters.peek() else {
            // What ends with a separator has an empty field behind it.
            if between.is_some() {
                let end = line.chars().count();
                fields.push(Field { text: String::new(), columns: end..end + 1 });
            }
            return Ok(fields);
        };
        let (mut text, mut end) = (String::new(), start);
        if first == '"' {
            letters.next();
            loop {
                match letters.next() {
                    Some((_, '"')) if letters.next_if(|&(_, c)| c == '"').is_some() => text.push('"'),
                    Some((place, '"')) => {
                        end = place + 1;
                        break;
                    }
                    Some((_, c)) => text.push(c),
                    None => {
                        return Err((
                            vec![start..line.chars().count()],
                            String::from("The quotes that begin here do not end on this line."),
                        ));
                    }
                }
            }
        }
        while let Some((place, c)) = letters.next_if(|&(_, c)| !ends(c)) {
            text.push(c);
            end = place + 1;
        }
        let text = String::from(text.trim());
        fields.push(Field { text, columns: start..end.max(start + 1) });
        if letters.next().is_none() {
            return Ok(fields);
        }
    }
}

/// Shows the cause of refusal 18 or 19.
pub fn of_marks(refusal: Refusal, records: &[Record]) -> Shown {
    let Some(record) = usize::from(refusal.line()).checked_sub(1).and_then(|place| records.get(place)) else {
        return Shown { quotes: vec![], notes: vec![format!("The list has {}.", counted(records.len(), "record"))] };
    };
    let Mark { candidate, question, possible, .. } = record.mark;
    let (place, note) = if !(1..=9999).contains(&candidate) {
        (0, String::from("A candidate is 1 to 9,999."))
    } else if !(1..=99).contains(&question) {
        (1, String::from("A question is 1 to 99."))
    } else if possible > 100 {
        (3, String::from("At most 100 marks are possible."))
    } else {
        (2, format!("More marks gained than the {possible} that are possible."))
    };
    let marks = record.columns.get(place).cloned().into_iter().collect();
    Shown { quotes: vec![Quote { line: record.line, text: record.text.clone(), marks }], notes: vec![note] }
}

#[cfg(test)]
mod tests {
    use super::*;

    fn numbers(text: &[u8]) -> Vec<[u16; 4]> {
        let records = records(text).expect("a list of marks");
        records.iter().map(|record| record.mark).map(|mark| [mark.candidate, mark.question, mark.gained, mark.possible]).collect()
    }

    #[test]
    fn marks_are_read_in_any_of_the_forms() {
        let text = b"# sitting 3\n\n12 1 7 20\n12,2,10;10\r\n\t9999\t99\t0\t0\n70000 1 1 1\n\"3\",\"1\",\"4\",\"10\"\n";
        assert_eq!(numbers(text), [[12, 1, 7, 20], [12, 2, 10, 10], [9999, 99, 0, 0], [65535, 1, 1, 1], [3, 1, 4, 10]]);
        let records = records(text).unwrap();
        assert_eq!(records[0].line, 3);
        assert_eq!(records[1].columns, [0..2, 3..4, 5..7, 8..10]);
        assert_eq!(records[4].columns, [0..3, 4..7, 8..11, 12..16]);
    }

    #[test]
    fn a_heading_says_which_columns_are_meant() {
        let text = b"\xef\xbb\xbfName;Question;\"Candidate\";Marks possible;Marks gained;Note\r\n\"Smith; J. \"\"Jim\"\"\";1;31;20;7;\r\n;2; 31;10;\"10\";late\r\n;;;;;\r\n";
        assert_eq!(numbers(text), [[31, 1, 7, 20], [31, 2, 10, 10]]);
        assert_eq!(numbers("Kandidat,Frage,Punkte,\"möglich, alle\"\n3,1,4,10\n".as_bytes()), [[3, 1, 4, 10]]);
        assert_eq!(numbers(b"candidate question gained possible\n1 2 3 4\n"), [[1, 2, 3, 4]]);
        assert_eq!(numbers(b"candidate\tquestion\tgained\tpossible\tremark\n1\t2\t3\t4\n"), [[1, 2, 3, 4]]);
    }

    #[test]
    fn what_is_no_list_of_marks_is_told() {
        for (text, line, note) in [
            (&b"1 2 3\n"[..], 1, "and this one has 3."),
            (b"1 2 3 4\n1 2 3 4 5\n", 2, "and this one has 5."),
            (b"1 2 3 4\ncandidate question gained possible\n", 2, "This is no number."),
            (b"1 -2 3 4", 1, "This is no number."),
            (b"\xff 1 1 1", 1, "This is no number."),
            (b"candidate,question,gained\n1,2,3\n", 1, "does not name one column possible."),
            (b"a,b,c\n1,2,3\n", 1, "does not name one column candidate, nor one question, nor one gained, nor one possible."),
            (b"candidate,question,gained,possible\n1,2,,4\n", 2, "There is no number here."),
            (b"candidate,question,gained,possible\n1,2,3\n", 2, "The line has fewer columns than the heading."),
            (b"candidate,question,gained,possible\n1,\"2,3,4\n", 2, "The quotes that begin here do not end on this line."),
        ] {
            let words = records(text).unwrap_err();
            assert_eq!(words.summary, format!("Not a list of marks, line {line}."));
            let Some(Part::Text(told)) = words.parts.last() else { panic!("no note") };
            assert!(told.ends_with(note), "{told}");
        }
    }
}
