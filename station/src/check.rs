//! Many files judged on all cores: their answers counted, or a line of the register for each.

use std::collections::BTreeMap;
use std::ffi::{OsStr, OsString};
use std::fs;
use std::io::{self, BufRead, BufReader, Write};
use std::iter;
use std::os::unix::ffi::{OsStrExt, OsStringExt};
use std::path::{Path, PathBuf};
use std::sync::{Arc, Mutex, PoisonError, mpsc};
use std::thread;
use std::time::{Duration, Instant};

use judge::{Cause, Refusal};

use crate::json::Json;
use crate::model::{self, counted, grouped};
use crate::register::{self, Finding};
use crate::{output, source};

/// How many refused files are named, and how many that cannot be read.
const NAMED: usize = 10;

/// What came out of many files.
#[derive(Debug, Default)]
pub struct Tally {
    pub files: usize,
    pub dangerous: usize,
    pub safe: usize,
    pub open: usize,
    pub none_safe: usize,
    /// By what the opening question says, where the settings question refuses.
    pub can_be_safe: usize,
    pub cannot_be_safe: usize,
    /// By number.
    pub refused: BTreeMap<u16, usize>,
    /// The first refused files with number and line.
    pub named: Vec<(String, Refusal)>,
    /// How many files cannot be read, and why not the first ones.
    pub unreadable: usize,
    pub unread: Vec<(String, String)>,
    /// How many things of a folder are no files: pipes, sockets, devices.
    pub no_files: usize,
    pub slowest: Option<(Duration, String)>,
}

impl Tally {
    /// Counts a file. As many are named as `most` says.
    fn add(&mut self, name: &OsStr, finding: &Finding, took: Duration, most: usize) {
        self.files += 1;
        match finding {
            Finding::Dangerous { .. } => self.dangerous += 1,
            Finding::Safe { .. } => self.safe += 1,
            Finding::Open { .. } => self.open += 1,
            Finding::NoneSafe => self.none_safe += 1,
            Finding::CanBeSafe { .. } => self.can_be_safe += 1,
            Finding::CannotBeSafe => self.cannot_be_safe += 1,
            Finding::Refused(refusal) => {
                *self.refused.entry(refusal.number()).or_default() += 1;
                if self.named.len() < most {
                    self.named.push((source::escaped(name), *refusal));
                }
            }
            Finding::Unreadable(why) => {
                self.unreadable += 1;
                if self.unread.len() < most {
                    self.unread.push((source::escaped(name), why.clone()));
                }
            }
        }
        if self.slowest.as_ref().is_none_or(|(longest, _)| took > *longest) {
            self.slowest = Some((took, source::escaped(name)));
        }
    }

    pub fn is_refused(&self) -> bool {
        !self.refused.is_empty()
    }

    fn all_refused(&self) -> usize {
        self.refused.values().sum()
    }

    /// How many files there were, and how fast they were judged.
    fn rate(&self, took: Duration, cores: usize) -> String {
        let seconds = took.as_secs_f64().max(1e-6);
        format!(
            "{} in {seconds:.2} s, {} files a second on {}",
            counted(self.files, "file"),
            grouped((self.files as f64 / seconds).round() as usize),
            counted(cores, "core"),
        )
    }

    /// The same with what went wrong, for one line beside a register.
    pub fn line(&self, took: Duration, cores: usize) -> String {
        let mut text = self.rate(took, cores);
        text += &format!("; {} refused", grouped(self.all_refused()));
        if self.unreadable > 0 {
            text += &format!(", {} not readable", grouped(self.unreadable));
        }
        text
    }

    /// The table.
    pub fn text(&self, title: &str, took: Duration, cores: usize) -> String {
        let refused = self.all_refused();
        let opening = self.can_be_safe + self.cannot_be_safe;
        let accepted = self.dangerous + self.safe + self.open + self.none_safe + opening;
        let mut text = format!("{title}: {}\n\n", self.rate(took, cores));
        let mut rows: Vec<(String, usize, &str)> = vec![
            (String::from("accepted"), accepted, ""),
            (String::from("  dangerous"), self.dangerous, ""),
            (String::from("  safe"), self.safe, ""),
            (String::from("  with open elements"), self.open + self.none_safe, ""),
            (String::from("    with a safe setting"), self.open, ""),
            (String::from("    with no safe setting"), self.none_safe, ""),
            (String::from("refused"), refused, ""),
        ];
        if opening > 0 {
            let rows_of_it = [
                (String::from("  with an opening question"), opening, "more than twelve open elements, at most twelve of them turnouts"),
                (String::from("    can be made safe: yes"), self.can_be_safe, ""),
                (String::from("    can be made safe: no"), self.cannot_be_safe, ""),
            ];
            rows.splice(rows.len() - 1..rows.len() - 1, rows_of_it);
        }
        let wide = rows.iter().map(|(label, ..)| label.len()).max().unwrap_or(0).max(24);
        for (&number, &files) in &self.refused {
            rows.push((format!("  with {number}"), files, Cause::new(number).map_or("", Cause::meaning)));
        }
        if self.unreadable > 0 {
            rows.push((String::from("not readable"), self.unreadable, ""));
        }
        if self.no_files > 0 {
            rows.push((String::from("left out, no files"), self.no_files, "pipes, sockets, devices"));
        }
        for (label, files, meaning) in &rows {
            let line = format!("{label:<wide$}{:>9}  {meaning}", grouped(*files));
            text += line.trim_end();
            text.push('\n');
        }
        if let Some((took, name)) = &self.slowest {
            text += &format!("\nslowest: {name}, {:.2} ms\n", took.as_secs_f64() * 1000.0);
        }
        if refused > 0 {
            text += "\nrefused files\n";
            for (name, refusal) in &self.named {
                let line = if refusal.line() == 0 { String::new() } else { format!(", line {}", refusal.line()) };
                text += &format!("  {name}: {}{line}\n", refusal.number());
            }
            if refused > self.named.len() {
                text += &format!("  and {} more (--all names them)\n", grouped(refused - self.named.len()));
            }
        }
        text
    }
}

/// What is asked of many files.
#[derive(Clone, Debug, PartialEq, Eq)]
pub struct Job {
    /// Folders, files, and `-` for names on the standard input.
    pub names: Vec<OsString>,
    /// How the names end that are taken out of a folder or from the standard input.
    pub ending: String,
    pub all: bool,
    /// Whether names on the standard input are ended by a zero byte, and not by a line feed.
    pub zero: bool,
    pub form: Form,
    pub heading: bool,
}

/// What comes out.
#[derive(Clone, Copy, Debug, PartialEq, Eq)]
pub enum Form {
    /// The answers, counted.
    Counts,
    /// A row for each file.
    Csv,
    /// An object for each file.
    Json,
}

/// A file that is to be judged.
struct Listed {
    path: PathBuf,
    /// Whether it goes by its name without the folder.
    short: bool,
    /// Why there is no such file.
    wrong: Option<String>,
}

impl Listed {
    fn name(&self) -> &OsStr {
        self.path.file_name().filter(|_| self.short).unwrap_or(self.path.as_os_str())
    }

    /// What the library says of it.
    fn finding(&self) -> Finding {
        match self.wrong.clone().map_or_else(|| source::read_regular(&self.path), Err) {
            Ok(file) => Finding::of(&file),
            Err(why) => Finding::Unreadable(why),
        }
    }
}

/// The files of a folder by name, and how many things there are that are neither file nor folder.
fn files_of(folder: &Path, ending: &str, output: Option<(u64, u64)>) -> io::Result<(Vec<PathBuf>, usize)> {
    let (mut files, mut no_files) = (Vec::new(), 0);
    for entry in fs::read_dir(folder)? {
        let entry = entry?;
        let mut kind = entry.file_type()?;
        if !entry.file_name().as_bytes().ends_with(ending.as_bytes()) {
            continue;
        }
        let path = entry.path();
        // A link counts as what it leads to; one that leads nowhere is a file that cannot be read.
        let leads_nowhere = if kind.is_symlink() {
            let target = fs::metadata(&path);
            kind = target.as_ref().map_or(kind, fs::Metadata::file_type);
            target.is_err()
        } else {
            false
        };
        if kind.is_file() || leads_nowhere {
            // The answer itself may go to a file of the folder.
            if output.is_none() || output::identity(&path) != output {
                files.push(path);
            }
        } else if !kind.is_dir() {
            no_files += 1;
        }
    }
    files.sort();
    Ok((files, no_files))
}

/// The files that the standard input names, one a line, or each ended by a zero byte.
fn names_given(zero: bool, ending: String) -> impl Iterator<Item = Listed> + Send {
    let end = if zero { 0 } else { b'\n' };
    let listed = |name: io::Result<Vec<u8>>| match name {
        Ok(name) => Listed { path: PathBuf::from(OsString::from_vec(name)), short: false, wrong: None },
        Err(error) => Listed { path: PathBuf::from("-"), short: false, wrong: Some(source::why(&error)) },
    };
    let names = BufReader::new(io::stdin()).split(end);
    // What cannot be read once cannot be read again.
    let mut broken = false;
    let names = names.take_while(move |name| !std::mem::replace(&mut broken, name.is_err()));
    names.map(listed).filter(move |listed| {
        let name = listed.path.as_os_str().as_bytes();
        !name.is_empty() && (listed.wrong.is_some() || name.ends_with(ending.as_bytes()))
    })
}

/// How many files a core takes at a time.
const SHARE: usize = 16;

/// Judges files on all cores, and hands the findings over in the order of the files, each with its line of a register.
fn judged(
    shares: impl Iterator<Item = Vec<Listed>> + Send,
    cores: usize,
    line: impl Fn(&OsStr, &Finding) -> String + Sync,
    mut take: impl FnMut(&OsStr, &Finding, Duration, &str) -> io::Result<()>,
) -> io::Result<()> {
    thread::scope(|scope| {
        let (give, shares_given) = mpsc::sync_channel(4 * cores);
        scope.spawn(move || {
            for share in shares.enumerate() {
                // Nobody wants the rest.
                if give.send(share).is_err() {
                    break;
                }
            }
        });
        let shares_given = Arc::new(Mutex::new(shares_given));
        let (hand_over, findings) = mpsc::sync_channel(4 * cores);
        for _ in 0..cores {
            let (shares_given, hand_over, line) = (Arc::clone(&shares_given), hand_over.clone(), &line);
            scope.spawn(move || {
                loop {
                    let share = shares_given.lock().unwrap_or_else(PoisonError::into_inner).recv();
                    let Ok((place, share)) = share else { break };
                    let findings: Vec<_> = share
                        .into_iter()
                        .map(|listed| {
                            let began = Instant::now();
                            let finding = listed.finding();
                            let took = began.elapsed();
                            let line = line(listed.name(), &finding);
                            (listed, finding, took, line)
                        })
                        .collect();
                    if hand_over.send((place, findings)).is_err() {
                        break;
                    }
                }
            });
        }
        drop((shares_given, hand_over));
        let mut early = BTreeMap::new();
        let mut next = 0;
        for (place, found) in findings {
            early.insert(place, found);
            while let Some(found) = early.remove(&next) {
                next += 1;
                for (listed, finding, took, line) in found {
                    take(listed.name(), &finding, took, &line)?;
                }
            }
        }
        Ok(())
    })
}

/// How far it is, on one line of the terminal that is written over and over.
struct Progress {
    shown: bool,
    /// How many files there are, where that is known.
    files: Option<usize>,
    started: Instant,
    last: Option<Instant>,
}

impl Progress {
    fn tell(&mut self, done: usize) {
        const PAUSE: Duration = Duration::from_millis(100);
        if self.shown && self.last.unwrap_or(self.started).elapsed() >= PAUSE {
            self.last = Some(Instant::now());
            let _ = write!(io::stderr(), "\r{}\x1b[K", progress_line(done, self.files, self.started.elapsed()));
        }
    }

    fn end(&self) {
        if self.last.is_some() {
            let _ = write!(io::stderr(), "\r\x1b[K");
        }
    }
}

fn progress_line(done: usize, files: Option<usize>, elapsed: Duration) -> String {
    let rate = done as f64 / elapsed.as_secs_f64().max(1e-6);
    let each_second = format!("{} a second", grouped(rate.round() as usize));
    match files {
        None => format!("{}, {each_second}", counted(done, "file")),
        Some(files) => {
            let left = (files - done.min(files)) as f64 / rate;
            let left = if rate > 0.0 { format!("{:.0} s left", left.ceil()) } else { String::from("..") };
            format!("{} of {} files, {each_second}, {left}", grouped(done), grouped(files))
        }
    }
}

/// The files of a job, and how many they are where that is known; or why there are none.
fn listed(
    job: &Job,
    output: Option<(u64, u64)>,
    no_files: &mut usize,
) -> Result<(Box<dyn Iterator<Item = Listed> + Send>, Option<usize>), String> {
    let mut parts: Vec<Box<dyn Iterator<Item = Listed> + Send>> = Vec::new();
    let mut files = Some(0);
    for name in &job.names {
        let path = Path::new(name);
        if name == "-" {
            files = None;
            parts.push(Box::new(names_given(job.zero, job.ending.clone())));
        } else if path.is_dir() {
            let cannot = |error| format!("{} cannot be read: {}", source::shown(name), source::why(&error));
            let (found, others) = files_of(path, &job.ending, output).map_err(cannot)?;
            files = files.map(|files| files + found.len());
            *no_files += others;
            let short = job.names.len() == 1;
            parts.push(Box::new(found.into_iter().map(move |path| Listed { path, short, wrong: None })));
        } else if let (1, Err(error)) = (job.names.len(), fs::metadata(path)) {
            return Err(format!("{} cannot be read: {}", source::shown(name), source::why(&error)));
        } else {
            files = files.map(|files| files + 1);
            parts.push(Box::new(iter::once(Listed { path: path.to_path_buf(), short: false, wrong: None })));
        }
    }
    Ok((Box::new(parts.into_iter().flatten()), files))
}

/// What came out of a job: the tally, and what is told beside the answer.
pub struct Checked {
    pub tally: Tally,
    pub aside: Vec<String>,
}

/// Judges many files and writes the counts, or a line for each of them; or says why there is nothing to judge.
pub fn check(job: &Job, progress: bool, output: Option<(u64, u64)>, out: &mut dyn Write) -> io::Result<Result<Checked, String>> {
    let started = Instant::now();
    let mut tally = Tally::default();
    let (mut files, total) = match listed(job, output, &mut tally.no_files) {
        Ok(listed) => listed,
        Err(wrong) => return Ok(Err(wrong)),
    };
    let cores = thread::available_parallelism().map_or(1, std::num::NonZero::get);
    let shares = iter::from_fn(move || Some(files.by_ref().take(SHARE).collect::<Vec<_>>()).filter(|share| !share.is_empty()));
    let line = |name: &OsStr, finding: &Finding| match job.form {
        Form::Counts => String::new(),
        Form::Csv => finding.row(name),
        Form::Json => format!("{}\n", Json::of_file(name, finding.fields())),
    };
    let mut progress = Progress { shown: progress, files: total, started, last: None };
    let most = if job.all { usize::MAX } else { NAMED };
    let done = judged(shares, cores, line, |name, finding, took, line| {
        if tally.files == 0 && job.form == Form::Csv && job.heading {
            out.write_all(register::heading().as_bytes())?;
        }
        tally.add(name, finding, took, most);
        progress.tell(tally.files);
        out.write_all(line.as_bytes())
    });
    progress.end();
    done?;
    if tally.files == 0 {
        let ending = if job.ending.is_empty() { String::new() } else { format!(" whose name ends in {}", job.ending) };
        let names: Vec<String> = job.names.iter().map(|name| source::shown(name)).collect();
        return Ok(Err(format!("there is no file{ending} in {}", model::listed(&names))));
    }
    let took = started.elapsed();
    let aside = if job.form == Form::Counts {
        let title = if job.names.len() == 1 { source::shown(&job.names[0]) } else { counted(job.names.len(), "name") };
        out.write_all(tally.text(&title, took, cores).as_bytes())?;
        let mut aside: Vec<String> = tally.unread.iter().map(|(name, why)| format!("{name} cannot be read: {why}")).collect();
        if tally.unreadable > aside.len() {
            aside.push(format!("and {} more (--all names them)", grouped(tally.unreadable - aside.len())));
        }
        aside
    } else {
        vec![tally.line(took, cores)]
    };
    Ok(Ok(Checked { tally, aside }))
}

#[cfg(test)]
mod tests {
    use super::*;

    #[test]
    fn progress_tells_the_time_left() {
        let line = |done, files, seconds| progress_line(done, files, Duration::from_secs(seconds));
        assert_eq!(line(2_500, Some(10_000), 5), "2,500 of 10,000 files, 500 a second, 15 s left");
        assert_eq!(line(0, Some(10), 0), "0 of 10 files, 0 a second, ..");
        assert_eq!(line(2_500, None, 5), "2,500 files, 500 a second");
    }

    #[test]
    fn the_table_counts_each_file_once() {
        let mut tally = Tally::default();
        let refusal = Refusal::new(Cause::LineCount, 1);
        let counts = judge::Counts::default();
        tally.add(OsStr::new("a"), &Finding::Safe { counts }, Duration::from_millis(1), 10);
        tally.add(OsStr::new("b"), &Finding::Refused(refusal), Duration::from_millis(3), 10);
        tally.add(OsStr::new("c"), &Finding::NoneSafe, Duration::from_millis(2), 10);
        assert_eq!((tally.files, tally.safe, tally.none_safe, tally.refused[&4]), (3, 1, 1, 1));
        let text = tally.text("folder", Duration::from_secs(1), 2);
        assert!(text.contains("slowest: b, 3.00 ms"));
        assert!(text.contains("  b: 4, line 1\n"));
        assert!(tally.is_refused());
        assert_eq!(tally.line(Duration::from_secs(1), 2), "3 files in 1.00 s, 3 files a second on 2 cores; 1 refused");
    }
}
