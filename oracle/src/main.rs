//! Compares the static library with the oracle.
//!
//!     oracle [N] [--from INDEX]
//!
//! tries files INDEX to INDEX + N - 1 (100,000 files from 0 on), on all cores. A file with a difference is written to oracle/failures/, and the
//! program then ends with status 1. The files are tried in processes of their own, one for each core, so that one on which the library crashes,
//! or gives no answer, is found as well.

mod agreement;
mod can_be_safe;
mod desk;
mod drawings;
mod frames;
mod library;
mod padded;
mod placement;
mod splitting;

use std::fmt;
use std::io::{BufRead, BufReader, Write};
use std::path::{Path, PathBuf};
use std::process::{Child, ChildStdin, Command, ExitCode, Stdio};
use std::sync::Mutex;
use std::sync::mpsc::{self, Receiver, RecvTimeoutError};
use std::thread;
use std::time::Duration;

use judge::ffi::{self, Filled, Mark, Part};
use judge::{Section, State};
use library::Library;
use oracle::answers::compare_answers;
use oracle::compare::{Tally, compare};
use oracle::converter;
use oracle::generate::{self, stations::Draft};
use oracle::law;
use oracle::random::Random;
use oracle::report::compare_reports;
use oracle::routes;

/// How many files are tried where nothing else is asked for.
const FILES: u64 = 100_000;
/// No file takes that long, and no other comparison; the slowest file, with twelve open elements in a large station, takes the oracle a few seconds.
const LONGEST: Duration = Duration::from_secs(300);
/// After so many differences the rest of the files is not tried.
const MOST_DIFFERENCES: u64 = 20;
/// A worker tries at most so many files at a time.
const MOST_AT_A_TIME: u64 = 500;
/// A line of a worker that tells which file comes next begins with this.
const NEXT: &str = "next ";
/// A line of a worker that tells what a task came to begins with this.
const DONE: &str = "done ";

/// A comparison of its own: its name, and what gives how many comparisons were made or the first difference.
type Other = (&'static str, fn() -> Result<u64, String>);

/// What is compared besides the files. The longer ones come first, so that no worker is left with one at the end.
const OTHERS: [Other; 15] = [
    ("the crate beside its C interface", agreement::compare),
    ("standing answers", || compare_answers(&ffi::standing_answers, 20_000)),
    ("reports", || compare_reports(&ffi::report, 20_000)),
    ("can it be saved", can_be_safe::compare),
    ("splitting", splitting::compare),
    ("routes", compare_routes),
    ("frames", frames::compare),
    ("both letters", same_answers),
    ("padded numbers", padded::compare),
    ("conversions", compare_converter),
    ("drawings", drawings::compare),
    ("desks", desk::compare_desks),
    ("placement", placement::compare),
    ("the shorter path", compare_shorter),
    ("a small stack", on_a_small_stack),
];

struct Arguments {
    files: u64,
    from: u64,
    worker: bool,
}

fn arguments() -> Option<Arguments> {
    let mut arguments = Arguments { files: FILES, from: 0, worker: false };
    let mut given = std::env::args().skip(1);
    while let Some(argument) = given.next() {
        match argument.as_str() {
            "--worker" => arguments.worker = true,
            "--from" => arguments.from = given.next()?.parse().ok()?,
            number => arguments.files = number.replace([',', '_'], "").parse().ok()?,
        }
    }
    Some(arguments)
}

fn main() -> ExitCode {
    let Some(arguments) = arguments() else {
        eprintln!("usage: oracle [N] [--from INDEX]");
        return ExitCode::from(2);
    };
    if arguments.worker { work() } else { supervise(&arguments) }
}

/// What a worker does at a time: files from one number up to another, or one of the other comparisons.
#[derive(Clone, Copy)]
enum Task {
    Files { from: u64, to: u64 },
    Other(usize),
}

/// As a worker is told it.
impl fmt::Display for Task {
    fn fmt(&self, f: &mut fmt::Formatter<'_>) -> fmt::Result {
        match self {
            Task::Files { from, to } => write!(f, "{from} {to}"),
            Task::Other(place) => write!(f, "{place}"),
        }
    }
}

/// The numbers of a line; nothing where a word is none.
fn numbers_of(line: &str) -> Vec<u64> {
    line.split_whitespace().map(str::parse).collect::<Result<_, _>>().unwrap_or_default()
}

fn task(line: &str) -> Option<Task> {
    match numbers_of(line)[..] {
        [from, to] => Some(Task::Files { from, to }),
        [place] => Some(Task::Other(usize::try_from(place).ok().filter(|&place| place < OTHERS.len())?)),
        _ => None,
    }
}

/// What tasks came to.
#[derive(Default)]
struct Sum {
    files: u64,
    differences: u64,
    tally: Tally,
}

impl Sum {
    fn add(&mut self, other: &Sum) {
        self.files += other.files;
        self.differences += other.differences;
        self.tally.comparisons += other.tally.comparisons;
        for (sum, refused) in self.tally.files_refused.iter_mut().zip(other.tally.files_refused) {
            *sum += refused;
        }
    }

    fn from_line(line: &str) -> Option<Sum> {
        let [files, differences, comparisons, ref refused @ ..] = numbers_of(line)[..] else { return None };
        Some(Sum { files, differences, tally: Tally { comparisons, files_refused: refused.try_into().ok()? } })
    }
}

/// As a worker tells it.
impl fmt::Display for Sum {
    fn fmt(&self, f: &mut fmt::Formatter<'_>) -> fmt::Result {
        write!(f, "{} {} {}", self.files, self.differences, self.tally.comparisons)?;
        self.tally.files_refused.iter().try_for_each(|refused| write!(f, " {refused}"))
    }
}

/// Does each task that is asked for on the standard input, and tells what it came to.
fn work() -> ExitCode {
    for line in std::io::stdin().lines().map_while(Result::ok) {
        let sum = match task(&line) {
            Some(Task::Files { from, to }) => try_files(from, to),
            Some(Task::Other(place)) => try_other(OTHERS[place]),
            None => return ExitCode::from(2),
        };
        println!("{DONE}{sum}");
    }
    ExitCode::SUCCESS
}

/// Tries the files, and tells each time which one is next.
fn try_files(from: u64, to: u64) -> Sum {
    let mut sum = Sum::default();
    for index in from..to {
        println!("{NEXT}{index}");
        sum.files += 1;
        let case = generate::case(index);
        if let Err(difference) = compare(&Library, &case.file, index, &mut sum.tally) {
            sum.differences += 1;
            report(index, &difference);
            if sum.differences == MOST_DIFFERENCES {
                break;
            }
        }
    }
    sum
}

fn try_other((name, compare): Other) -> Sum {
    let mut sum = Sum::default();
    match compare() {
        Ok(compared) => sum.tally.comparisons = compared,
        Err(difference) => {
            sum.differences = 1;
            println!("{name}: {difference}");
        }
    }
    sum
}

/// Header and crate promise that a call takes less than 128 KB of stack: each operation runs on a thread that has no more, on large files with and
/// without open elements. A call that takes more ends the process.
fn on_a_small_stack() -> Result<u64, String> {
    const STACK: usize = 128 * 1024;
    for (turnouts, open) in [(false, 0), (false, 12), (true, 0), (true, 12)] {
        let mut draft = Draft::new(512);
        for section in 1..=512 {
            draft.plain(section, section % 512 + 1);
            draft.plain(section % 512 + 1, section);
        }
        let elements = if turnouts { 128 } else { 256 };
        for element in 0..elements {
            let state = if elements - element <= open { 0 } else { 2 };
            if turnouts {
                draft.turnout(element * 4 + 1, element * 4 + 3, (element * 4 + 4) % 512 + 2, state);
            } else {
                draft.signal(element * 2 + 1, (element * 2 + 3) % 512, state);
            }
        }
        for train in 0..64 {
            draft.train(train * 8 + 1);
        }
        let file = law::write(&draft.situation(), usize::MAX).expect("the station is accepted");
        let calls = move || {
            let (mut first, mut second) = (vec![Section(0); 512], vec![Section(0); 512]);
            let mut states = vec![State::Open; 256];
            let mut buffer = vec![0; judge::KEY_SIZE.max(file.len())];
            let situation = judge::read(&file).expect("the station is accepted");
            let _ = judge::write(&situation, &mut buffer);
            let _ = judge::verdict(&file, &mut first, &mut second);
            let _ = judge::settings(&file, &mut states);
            let _ = judge::frame(&file, u64::MAX, &mut states);
            let _ = judge::can_be_safe(&file);
            let _ = judge::key(&file, &mut buffer);
            let _ = judge::report(&[Mark { candidate: 1, question: 1, gained: 1, possible: 1 }; 999], &mut buffer);
        };
        thread::Builder::new().stack_size(STACK).spawn(calls).expect("a thread starts").join().expect("the station is read");
    }
    Ok(0)
}

/// The shorter of two lists with any lengths, by 01's sentence, beside the library's: how many were compared, or the first that differs.
/// Lists are told apart by where they stand, so that the first of two equal paths is seen to be the one handed back.
fn compare_shorter() -> Result<u64, String> {
    const PAIRS: u64 = 10_000;
    for seed in 0..PAIRS {
        let random = &mut Random::new(seed);
        let list =
            |random: &mut Random| -> Vec<Section> { (0..random.between(0, 6)).map(|_| Section(random.between(1, 512) as u16)).collect() };
        let (first, second) = (list(random), list(random));
        let length = |random: &mut Random| if random.once_in(8) { usize::MAX } else { random.between(0, 8) as usize };
        let (n, m) = (length(random), length(random));
        let (a, b) = (&first[..n.min(first.len())], &second[..m.min(second.len())]);
        let (list, wanted) = if b.len() < a.len() { (2, b) } else { (1, a) };
        let part = ffi::shorter(ffi::numbers(&first), n, ffi::numbers(&second), m);
        let given = judge::shorter(a, b);
        if part != (Part { list, length: wanted.len() }) || !std::ptr::eq(given, wanted) {
            return Err(format!("the shorter of {first:?} at {n} and {second:?} at {m}: {part:?} and {given:?} in place of {wanted:?}"));
        }
    }
    Ok(PAIRS)
}

/// The tables of route files, right and wrong, beside the library's: how many were compared, or the first that differs.
fn compare_routes() -> Result<u64, String> {
    const CASES: u64 = 6_000;
    let (compared, outcomes) = routes::compare(ffi::routes, CASES)?;
    println!("route files: {} tables, {} refused with 14, {} with 15", outcomes[0], outcomes[14], outcomes[15]);
    Ok(compared)
}

/// The library's converter.
fn convert(wanted: u8, file: &[u8], buffer: &mut [u8]) -> Filled {
    if wanted == b'S' { ffi::to_s(file, buffer) } else { ffi::to_u(file, buffer) }
}

/// Files of both letters through the converter: how many calls were compared, or the first that differs.
fn compare_converter() -> Result<u64, String> {
    const CASES: u64 = 3_000;
    let (compared, outcomes) = converter::compare(convert, CASES)?;
    println!("conversions: {} files, {} refused with 13, {} with 9", outcomes[0], outcomes[13], outcomes[9]);
    Ok(compared)
}

/// "Both files get the same verdict, shown paths aside", and the same settings: how many pairs of answers were compared, or the first that differs.
fn same_answers() -> Result<u64, String> {
    const CASES: u64 = 6_000;
    let mut compared = 0;
    for index in 0..CASES {
        for file in converter::both_letters(&generate::case(index).file) {
            let wanted = if file.first() == Some(&b'S') { b'U' } else { b'S' };
            let mut text = vec![0; file.len()];
            if convert(wanted, &file, &mut text).refusal.number != 0 {
                continue;
            }
            let situation = ffi::read(&text).situation;
            let verdict = |file: &[u8], room: usize| {
                let (mut first, mut second) = (vec![9; room], vec![9; room]);
                let v = ffi::verdict(file, &mut first, &mut second);
                (v.refusal, v.dangerous, (v.first_train, v.second_train), v.meeting, (v.entries, v.looks))
            };
            let settings = |file: &[u8], room: usize| {
                let mut buffer = vec![9; room];
                (ffi::settings(file, &mut buffer), buffer)
            };
            let (sections, elements) = (usize::from(situation.sections), usize::from(situation.elements));
            for (lists, room) in [(sections, elements + 1), (sections - 1, elements.saturating_sub(1)), (512, 256)] {
                compared += 2;
                if verdict(&file, lists) != verdict(&text, lists) {
                    return Err(format!("file {index}: another verdict with the letter {}", wanted as char));
                }
                if settings(&file, room) != settings(&text, room) {
                    return Err(format!("file {index}: another reply with the letter {}", wanted as char));
                }
            }
        }
    }
    if compared == 0 { Err("no file was converted".to_string()) } else { Ok(compared) }
}

/// Says what is wrong with a file and keeps it.
fn report(index: u64, difference: &str) {
    println!("{}", reported(index, difference));
}

fn reported(index: u64, difference: &str) -> String {
    let case = generate::case(index);
    let kept = match keep(index, &case.file) {
        Ok(place) => format!("the file is {}", place.display()),
        Err(error) => format!("the file could not be kept: {error}"),
    };
    format!("file {index} ({}): {}; {kept}", case.made, difference.replace('\n', "\\n"))
}

fn keep(index: u64, file: &[u8]) -> std::io::Result<PathBuf> {
    let folder = Path::new(env!("CARGO_MANIFEST_DIR")).join("failures");
    std::fs::create_dir_all(&folder)?;
    let place = folder.join(format!("{index}.txt"));
    std::fs::write(&place, file)?;
    Ok(place)
}

/// A process that tries what it is told.
struct Worker {
    process: Child,
    input: ChildStdin,
    lines: Receiver<String>,
}

impl Worker {
    fn start() -> Worker {
        let program = std::env::current_exe().expect("the program has a path");
        let mut process = Command::new(program)
            .arg("--worker")
            .stdin(Stdio::piped())
            .stdout(Stdio::piped())
            .spawn()
            .expect("the program can start itself");
        let input = process.stdin.take().expect("the worker's input is piped");
        let output = process.stdout.take().expect("the worker's output is piped");
        let (sender, lines) = mpsc::channel();
        thread::spawn(move || BufReader::new(output).lines().map_while(Result::ok).try_for_each(|line| sender.send(line)));
        Worker { process, input, lines }
    }

    /// Has the worker do a task, and passes on what it prints. Where it came to grief: what happened, and the file that it was at, if it was at one.
    fn run(&mut self, task: Task) -> Result<Sum, (String, Option<u64>)> {
        let mut at = None;
        // A worker that is gone is noticed at its output.
        let _ = writeln!(self.input, "{task}");
        let hangs = loop {
            match self.lines.recv_timeout(LONGEST) {
                Ok(line) => {
                    if let Some(next) = line.strip_prefix(NEXT).and_then(|number| number.parse().ok()) {
                        at = Some(next);
                    } else if let Some(sum) = line.strip_prefix(DONE).and_then(Sum::from_line) {
                        return Ok(sum);
                    } else {
                        println!("{line}");
                    }
                }
                Err(RecvTimeoutError::Timeout) => break true,
                Err(RecvTimeoutError::Disconnected) => break false,
            }
        };
        if hangs {
            self.process.kill().expect("the worker can be ended");
        }
        let status = self.process.wait().expect("the worker ends");
        Err((if hangs { String::from("no answer") } else { format!("the process ended with {status}") }, at))
    }
}

/// What the workers share: the tasks that are left, the first of them last, and what the others came to.
struct Shared {
    tasks: Mutex<Vec<Task>>,
    sum: Mutex<Sum>,
}

impl Shared {
    fn sum(&self) -> std::sync::MutexGuard<'_, Sum> {
        self.sum.lock().expect("no thread panics")
    }

    fn next(&self) -> Option<Task> {
        let task = self.tasks.lock().expect("no thread panics").pop()?;
        (matches!(task, Task::Other(_)) || self.sum().differences < MOST_DIFFERENCES).then_some(task)
    }

    /// Has a worker do tasks as long as there are any. After one that came to grief another goes on behind the file.
    fn serve(&self) {
        let mut worker = None;
        while let Some(task) = self.next() {
            let done = worker.get_or_insert_with(Worker::start).run(task);
            let sum = done.unwrap_or_else(|(grief, at)| {
                worker = None;
                let mut sum = Sum { differences: 1, ..Sum::default() };
                match (task, at) {
                    (Task::Files { from, to }, Some(index)) => {
                        println!("{}", reported(index, &grief));
                        sum.files = index + 1 - from;
                        self.tasks.lock().expect("no thread panics").push(Task::Files { from: index + 1, to });
                    }
                    (Task::Other(place), _) => println!("{}: {grief}", OTHERS[place].0),
                    (Task::Files { from, to }, None) => println!("files {from} to {}: {grief}", to - 1),
                }
                sum
            });
            self.sum().add(&sum);
        }
        if let Some(Worker { mut process, input, .. }) = worker {
            drop(input);
            process.wait().expect("the worker ends");
        }
    }
}

/// Shares the work out among a worker for each core, and adds up what they tell.
fn supervise(arguments: &Arguments) -> ExitCode {
    let cores = thread::available_parallelism().map_or(1, std::num::NonZero::get);
    let at_a_time = (arguments.files / (8 * cores as u64)).clamp(1, MOST_AT_A_TIME);
    let end = arguments.from + arguments.files;
    let files = (arguments.from..end).step_by(at_a_time as usize).map(|from| Task::Files { from, to: end.min(from + at_a_time) });
    let mut tasks: Vec<Task> = (0..OTHERS.len()).map(Task::Other).chain(files).collect();
    tasks.reverse();
    let shared = Shared { tasks: Mutex::new(tasks), sum: Mutex::default() };
    thread::scope(|scope| {
        for _ in 0..cores {
            scope.spawn(|| shared.serve());
        }
    });
    let Sum { files, differences, tally } = shared.sum.into_inner().expect("no thread panics");
    if files < arguments.files {
        println!("{differences} differences: {} files were not tried", arguments.files - files);
    }
    let refused: Vec<String> = (1..=8).map(|number| format!("{number}: {}", tally.files_refused[number])).collect();
    println!("accepted {}, refused with {}", tally.files_refused[0], refused.join(", "));
    println!("{files} files, {} comparisons, {differences} differences", tally.comparisons);
    if differences == 0 { ExitCode::SUCCESS } else { ExitCode::FAILURE }
}
