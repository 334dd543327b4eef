//! The examiner's desk: what the station judge says of a file, in words and in a picture.
//!
//! It is a reader's view. Every answer (refusal, verdict, path, setting, table) comes from the library through the crate `judge`, in `ask` and beside
//! the commands here; the rest reads the text again for display.

pub mod appeal;
pub mod args;
pub mod ask;
pub mod cause;
pub mod check;
mod columns;
pub mod commands;
mod completions;
mod csv;
pub mod doc;
mod encoding;
mod facts;
pub mod json;
pub mod layout;
mod lines;
mod manual;
mod marks;
pub mod model;
pub mod moves;
mod nearest;
pub mod opening;
mod output;
pub mod page;
pub mod picture;
pub mod positions;
pub mod questions;
pub mod register;
pub mod shown;
mod source;
pub mod tables;
pub mod walk;
pub mod what_if;
pub mod words;

use std::ffi::{OsStr, OsString};
use std::io::{self, IsTerminal, Write};
use std::path::Path;

use args::{Call, Request, Shape};
use doc::{Words, to_text};
use layout::curve::Point;
use output::Output;
use tables::{Fields, Unanswered};

/// How the program ends.
pub const DONE: u8 = 0;
pub const REFUSED: u8 = 1;
pub const WRONG_USE: u8 = 2;
pub const NOT_RIGHT: u8 = 3;

/// Does what a command line asks for, without the program's name, and gives the exit status.
pub fn run(arguments: &[OsString], out: &mut dyn Write, err: &mut dyn Write) -> u8 {
    let call = args::parse(arguments).and_then(|call| overwrites(&call).map_or(Ok(call), Err));
    let Call { request, output, quiet } = match call {
        Ok(call) => call,
        Err(wrong) => {
            let _ = writeln!(err, "station: {}\nstation --help says what it can do", source::escaped(OsStr::new(&wrong)));
            return WRONG_USE;
        }
    };
    let mut file = output.as_deref().map(Output::to);
    let out: &mut dyn Write = match &mut file {
        Some(file) => file,
        None => out,
    };
    let to_terminal = output.is_none() && io::stdout().is_terminal();
    let output = output::identity(output.as_deref().map_or(Path::new("/dev/stdout"), Path::new));
    let mut desk = Desk { out, err, quiet, to_terminal, output, status: DONE };
    let done = desk.serve(&request).and_then(|()| desk.out.flush());
    let Desk { status, .. } = desk;
    match done.and_then(|()| file.filter(|_| status != WRONG_USE).map_or(Ok(()), |mut file| file.finish())) {
        Ok(()) => status,
        // Whoever read the answer has seen enough of it, and whoever waits for all of it learns from the status that it was cut.
        Err(error) if error.kind() == io::ErrorKind::BrokenPipe => WRONG_USE,
        Err(error) => {
            let _ = writeln!(err, "station: the answer cannot be written: {}", source::why(&error));
            WRONG_USE
        }
    }
}

/// Says that the answer would overwrite a file that is read for it.
fn overwrites(call: &Call) -> Option<String> {
    let output = call.output.as_ref()?;
    let identity = output::identity(Path::new(output))?;
    let read = call.request.names().into_iter().find(|name| output::identity(Path::new(name)) == Some(identity))?;
    Some(format!("the answer would overwrite {}", source::shown(read)))
}

struct Desk<'a> {
    out: &'a mut dyn Write,
    err: &'a mut dyn Write,
    /// Whether only what is wrong is told beside the answer.
    quiet: bool,
    /// Whether the answer goes to a terminal.
    to_terminal: bool,
    /// The file that it goes to, where it is one that is there.
    output: Option<(u64, u64)>,
    status: u8,
}

impl Desk<'_> {
    fn serve(&mut self, request: &Request) -> io::Result<()> {
        match request {
            Request::Told(text) => self.out.write_all(text.as_bytes()),
            Request::Key { files, named, counts } => self.each(files, |desk, _, name, file| desk.key(name, file, *named, *counts)),
            Request::Explain { files, questions, shape } => {
                self.each(files, |desk, number, name, file| desk.explain(number, name, file, questions, *shape))
            }
            Request::Draw { file, look } => self.each(std::slice::from_ref(file), |desk, _, name, file| desk.draw(name, file, look)),
            Request::Page { files, look } => self.page(files, look),
            Request::Walk { file } => self.each(std::slice::from_ref(file), |desk, _, name, file| desk.walk(name, file)),
            Request::Check(job) => self.check(job),
            Request::Routes { station, routes, why, shape } => {
                let (Some(file), Some(list)) = (self.read(station), self.read(routes)) else { return Ok(()) };
                match shape {
                    Shape::Json => self.fields(routes, &["routes", "conflicts"], tables::routes_fields(&file, &list)),
                    _ => {
                        let name = format!("{} in {}", source::shown(routes), source::shown(station));
                        self.table(&name, tables::routes(&file, &list, *why))
                    }
                }
            }
            Request::Answers { log, shape } => {
                let Some(bytes) = self.read(log) else { return Ok(()) };
                match shape {
                    Shape::Words => self.table(&source::shown(log), tables::answers(&bytes)),
                    Shape::Json => self.fields(log, &["answers"], tables::answers_fields(&bytes)),
                    Shape::Lines => self.lines(log, tables::answer_lines(&bytes).map_err(Unanswered::from)),
                }
            }
            Request::Report { marks, shape } => {
                let Some(bytes) = self.read(marks) else { return Ok(()) };
                match shape {
                    Shape::Words => self.table(&source::shown(marks), tables::report(&bytes)),
                    Shape::Json => self.fields(marks, &["candidates", "session"], tables::report_fields(&bytes)),
                    Shape::Lines => self.lines(marks, tables::report_lines(&bytes)),
                }
            }
            Request::Convert { file: name, to } => match self.read(name) {
                Some(file) => self.lines(name, lines::converted(&file, *to).map_err(Unanswered::from)),
                None => Ok(()),
            },
            Request::Place { placing, shape: Shape::Lines } => {
                let name = OsString::from(format!("paper {}", placing.paper));
                self.lines(&name, placing.lines().map_err(Unanswered::from))
            }
            Request::Place { placing, .. } => {
                let words = placing.words().map_err(|refusal| words::refused(refusal, &cause::Shown::default()));
                self.table(&format!("paper {}", placing.paper), words)
            }
        }
    }

    /// The worse of two statuses stays.
    fn end_with(&mut self, status: u8) {
        let badness = |status| [DONE, NOT_RIGHT, REFUSED, WRONG_USE].iter().position(|&other| other == status);
        if badness(status) > badness(self.status) {
            self.status = status;
        }
    }

    fn wrong(&mut self, words: &str) {
        let _ = writeln!(self.err, "station: {words}");
        self.end_with(WRONG_USE);
    }

    /// The bytes of a file; where it cannot be read, that is told.
    fn read(&mut self, name: &OsStr) -> Option<Vec<u8>> {
        source::read(name).map_err(|wrong| self.wrong(&wrong)).ok()
    }

    /// Does something with each file that can be read.
    fn each(&mut self, names: &[OsString], act: impl Fn(&mut Self, usize, &OsStr, &[u8]) -> io::Result<()>) -> io::Result<()> {
        for (number, name) in names.iter().enumerate() {
            if let Some(file) = self.read(name) {
                act(self, number, name, &file)?;
            }
        }
        Ok(())
    }

    fn key(&mut self, name: &OsStr, file: &[u8], named: bool, counts: bool) -> io::Result<()> {
        let mut buffer = vec![0; judge::KEY_SIZE];
        let output = judge::key_counted(file, &mut buffer).expect("a key of any file");
        let key = &buffer[..output.length];
        if key.starts_with(b"R") {
            self.end_with(REFUSED);
        }
        if named {
            writeln!(self.out, "==> {} <==", source::escaped(name))?;
        }
        self.out.write_all(key)?;
        if counts {
            writeln!(self.err, "{}: {} subtractions", source::shown(name), output.subtractions)?;
        }
        Ok(())
    }

    fn explain(&mut self, number: usize, name: &OsStr, file: &[u8], questions: &args::Questions, shape: Shape) -> io::Result<()> {
        let answer = ask::answer(file);
        let mut words = words::of_answer(&answer, file);
        if let Some(station) = answer.station() {
            let replies = questions::replies(file, station, questions);
            words.parts.extend(replies.parts);
            if replies.refused {
                self.end_with(REFUSED);
            }
            if replies.not_right {
                self.end_with(NOT_RIGHT);
            }
            if let Some(wrong) = replies.wrong {
                self.wrong(&format!("{}: {wrong}", source::shown(name)));
            }
        }
        if answer.refusal().is_some() {
            self.end_with(REFUSED);
        }
        if shape == Shape::Json {
            return writeln!(self.out, "{}", facts::explained(name, file, &answer, &words));
        }
        if number > 0 {
            writeln!(self.out)?;
        }
        self.out.write_all(told(&source::shown(name), &words).as_bytes())
    }

    /// The college's own positions of a station; where their file is wrong that is told, and the picture is drawn without them.
    fn positions(&mut self, name: &OsStr, answer: &ask::Answer) -> Option<Vec<Point>> {
        match positions::of_station(name, answer.station()?.sections()) {
            Ok(found) => found,
            Err(wrong) => {
                let _ = writeln!(self.err, "station: {wrong}");
                self.end_with(REFUSED);
                None
            }
        }
    }

    fn draw(&mut self, name: &OsStr, file: &[u8], look: &args::Look) -> io::Result<()> {
        let answer = ask::answer(file);
        if answer.refusal().is_some() {
            self.end_with(REFUSED);
        }
        let positions = self.positions(name, &answer);
        let shown = source::shown(name);
        match shown::view_of(&answer, file, look) {
            Ok(Some(view)) => {
                if view.right == Some(false) {
                    self.end_with(NOT_RIGHT);
                }
                self.out.write_all(view.draw(&shown, "", true, positions.as_deref()).as_bytes())
            }
            Ok(None) => {
                let words = words::of_answer(&answer, file);
                let _ = write!(self.err, "station: there is no picture of a file that is refused\n{}", told(&shown, &words));
                Ok(())
            }
            Err((status, wrong)) => {
                let _ = writeln!(self.err, "station: {shown}: {wrong}");
                self.end_with(status);
                Ok(())
            }
        }
    }

    fn page(&mut self, names: &[OsString], look: &args::Look) -> io::Result<()> {
        let mut entries = Vec::new();
        for (number, name) in names.iter().enumerate() {
            let Some(file) = self.read(name) else { continue };
            let answer = ask::answer(&file);
            if answer.refusal().is_some() {
                self.end_with(REFUSED);
            }
            let positions = self.positions(name, &answer);
            let name = source::shown(name);
            match page::Entry::new(&name, number + 1, &answer, &file, look, positions.as_deref()) {
                Ok((entry, status)) => {
                    self.end_with(status);
                    entries.push(entry);
                }
                Err(wrong) => self.wrong(&format!("{name}: {wrong}")),
            }
        }
        if entries.is_empty() {
            return Ok(());
        }
        self.out.write_all(page::page(&entries).as_bytes())
    }

    fn walk(&mut self, name: &OsStr, file: &[u8]) -> io::Result<()> {
        let answer = ask::answer(file);
        let shown = source::shown(name);
        let walk = match answer.station().map(|station| walk::Walk::new(file, station)) {
            Some(Ok(walk)) => walk,
            refused => {
                self.end_with(REFUSED);
                let words = match refused {
                    Some(Err(refusal)) => words::refused(refusal, &cause::of_station(refusal, file)),
                    _ => words::of_answer(&answer, file),
                };
                let _ = write!(self.err, "station: there are no frames of this file\n{}", told(&shown, &words));
                return Ok(());
            }
        };
        let positions = self.positions(name, &answer);
        self.out.write_all(walk::page(&shown, &walk, positions.as_deref()).as_bytes())
    }

    fn check(&mut self, job: &check::Job) -> io::Result<()> {
        let progress = !self.quiet && io::stderr().is_terminal() && (job.form == check::Form::Counts || !self.to_terminal);
        match check::check(job, progress, self.output, self.out)? {
            Ok(checked) => {
                if checked.tally.is_refused() {
                    self.end_with(REFUSED);
                }
                if checked.tally.unreadable > 0 {
                    self.end_with(WRONG_USE);
                }
                for line in checked.aside.iter().filter(|_| !self.quiet || job.form == check::Form::Counts) {
                    let _ = writeln!(self.err, "station: {line}");
                }
            }
            Err(wrong) => self.wrong(&wrong),
        }
        Ok(())
    }

    /// An answer as JSON: its fields, or why there are none of these names.
    fn fields(&mut self, name: &OsStr, names: &[&'static str], fields: Result<Fields, Unanswered>) -> io::Result<()> {
        if fields.is_err() {
            self.end_with(REFUSED);
        }
        writeln!(self.out, "{}", facts::answered(name, names, fields))
    }

    /// An answer in lines, or the R line of a refusal; what else is wrong is told.
    fn lines(&mut self, name: &OsStr, lines: Result<Vec<u8>, Unanswered>) -> io::Result<()> {
        let wrong = match lines {
            Ok(lines) => return self.out.write_all(&lines),
            Err(wrong) => wrong,
        };
        self.end_with(REFUSED);
        let _ = writeln!(self.err, "station: {}: {}", source::shown(name), wrong.words());
        wrong.refusal.map_or(Ok(()), |refusal| self.out.write_all(&lines::refusal(refusal)))
    }

    fn table(&mut self, name: &str, words: Result<Words, Words>) -> io::Result<()> {
        match words {
            Ok(words) => self.out.write_all(told(name, &words).as_bytes()),
            Err(words) => {
                self.end_with(REFUSED);
                self.out.write_all(told(name, &words).as_bytes())
            }
        }
    }
}

/// An answer as text, under the name of its file.
pub fn told(name: &str, words: &Words) -> String {
    let mut text = format!("{name}\n{}\n", words.summary);
    if !words.parts.is_empty() {
        text.push('\n');
        text += &to_text(&words.parts);
    }
    text
}
