//! An answer in words, part by part, before it becomes text for a terminal or a part of a page.

/// How an answer came out, for a heading or a badge.
#[derive(Clone, Copy, Debug, PartialEq, Eq)]
pub enum Outcome {
    Refused,
    Dangerous,
    Safe,
    /// Open elements, and a setting of them is safe.
    Open,
    /// Open elements, and no setting of them is safe.
    NoneSafe,
    /// More open elements than the settings question takes, and some setting of them is safe.
    CanBeSafe,
    /// The same, and none is.
    CannotBeSafe,
}

impl Outcome {
    pub fn word(self) -> &'static str {
        match self {
            Outcome::Refused => "refused",
            Outcome::Dangerous => "dangerous",
            Outcome::Safe => "safe",
            Outcome::Open => "open",
            Outcome::NoneSafe => "no safe setting",
            Outcome::CanBeSafe => "can be made safe: yes",
            Outcome::CannotBeSafe => "can be made safe: no",
        }
    }
}

/// A part of an answer.
#[derive(Clone, Debug, PartialEq, Eq)]
pub enum Part {
    Heading(String),
    Text(String),
    /// One line each.
    List(Vec<String>),
    Table(Table),
    Quote(Quote),
}

/// A table with headings. Columns of numbers are flush right.
#[derive(Clone, Debug, Default, PartialEq, Eq)]
pub struct Table {
    pub headings: Vec<String>,
    pub rows: Vec<Vec<String>>,
}

/// A line of a file, with marks under some of its columns, counted from 0.
#[derive(Clone, Debug, PartialEq, Eq)]
pub struct Quote {
    pub line: usize,
    /// One character for each byte.
    pub text: String,
    pub marks: Vec<std::ops::Range<usize>>,
}

impl Table {
    pub fn new(headings: &[&str]) -> Table {
        Table { headings: headings.iter().map(|&heading| String::from(heading)).collect(), rows: Vec::new() }
    }

    pub fn row(&mut self, cells: Vec<String>) {
        self.rows.push(cells);
    }

    /// Whether a column has numbers only, or "all" in place of one, so that it is set flush right.
    pub fn is_number(&self, column: usize) -> bool {
        let number = |cell: &String| cell == "all" || !cell.is_empty() && cell.chars().all(|c| c.is_ascii_digit() || c == ',');
        !self.rows.is_empty() && self.rows.iter().all(|row| row.get(column).is_some_and(number))
    }

    /// The table as lines of text.
    pub fn lines(&self) -> Vec<String> {
        let columns = self.headings.len();
        let width = |text: &String| text.chars().count();
        let widths: Vec<usize> = (0..columns)
            .map(|column| {
                let cells = self.rows.iter().filter_map(|row| row.get(column)).map(width).max().unwrap_or(0);
                cells.max(width(&self.headings[column]))
            })
            .collect();
        let set = |row: &[String]| -> String {
            let cells: Vec<String> = (0..columns)
                .map(|column| {
                    let cell = row.get(column).map_or("", String::as_str);
                    let room = widths[column];
                    if self.is_number(column) { format!("{cell:>room$}") } else { format!("{cell:<room$}") }
                })
                .collect();
            String::from(cells.join("  ").trim_end())
        };
        let mut lines = vec![set(&self.headings)];
        lines.extend(self.rows.iter().map(|row| set(row)));
        lines
    }
}

impl Quote {
    /// The marks as a line of text under the quoted one.
    pub fn marks_line(&self) -> String {
        let end = self.marks.iter().map(|mark| mark.end).max().unwrap_or(0);
        (0..end).map(|column| if self.marks.iter().any(|mark| mark.contains(&column)) { '^' } else { ' ' }).collect()
    }
}

/// An answer in words.
#[derive(Clone, Debug, PartialEq, Eq)]
pub struct Words {
    pub outcome: Outcome,
    /// One sentence.
    pub summary: String,
    pub parts: Vec<Part>,
}

impl Words {
    pub fn heading(&mut self, text: impl Into<String>) {
        self.parts.push(Part::Heading(text.into()));
    }

    pub fn text(&mut self, text: impl Into<String>) {
        self.parts.push(Part::Text(text.into()));
    }

    pub fn list(&mut self, lines: Vec<String>) {
        self.parts.push(Part::List(lines));
    }

    pub fn table(&mut self, table: Table) {
        self.parts.push(Part::Table(table));
    }
}

/// Parts as text for a terminal.
pub fn to_text(parts: &[Part]) -> String {
    let mut text = String::new();
    for (place, part) in parts.iter().enumerate() {
        match part {
            Part::Heading(heading) => {
                if place > 0 {
                    text.push('\n');
                }
                text += heading;
                text.push('\n');
            }
            Part::Text(sentence) => {
                text += &wrapped(sentence, 100);
            }
            Part::List(lines) => {
                for line in lines {
                    text += &format!("  {line}\n");
                }
            }
            Part::Table(table) => {
                for line in table.lines() {
                    text += &format!("  {line}\n");
                }
            }
            Part::Quote(quote) => {
                let lead = format!("  line {}: ", quote.line);
                text += &format!("{lead}{}\n", quote.text.trim_end());
                text += &format!("{}{}\n", " ".repeat(lead.len()), quote.marks_line());
            }
        }
    }
    text
}

/// A sentence in lines of at most so many characters.
pub fn wrapped(sentence: &str, width: usize) -> String {
    let mut text = String::new();
    let mut column = 0;
    for word in sentence.split(' ') {
        let length = word.chars().count();
        if column > 0 && column + 1 + length > width {
            text.push('\n');
            column = 0;
        } else if column > 0 {
            text.push(' ');
            column += 1;
        }
        text += word;
        column += length;
    }
    text.push('\n');
    text
}

#[cfg(test)]
mod tests {
    use super::*;

    #[test]
    fn numbers_are_flush_right_and_words_flush_left() {
        let mut table = Table::new(&["train", "what"]);
        table.row(vec![String::from("1"), String::from("in section 1")]);
        table.row(vec![String::from("12"), String::from("x")]);
        assert_eq!(table.lines(), ["train  what", "    1  in section 1", "   12  x"]);
    }

    #[test]
    fn marks_stand_under_their_columns() {
        let quote = Quote { line: 7, text: String::from("L    2    3    1     "), marks: vec![1..6, 6..11] };
        assert_eq!(to_text(&[Part::Quote(quote)]), "  line 7: L    2    3    1\n           ^^^^^^^^^^\n");
    }

    #[test]
    fn long_sentences_are_wrapped() {
        assert_eq!(wrapped("one two three", 7), "one two\nthree\n");
        assert_eq!(wrapped("", 7), "\n");
    }
}
