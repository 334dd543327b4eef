//! Times of the static library beside the fast program.
//!
//!     bench                                  the table of times of one process
//!     bench --times                          the same for another program, in nanoseconds
//!     bench --figures [PROCESSES]            the table of docs/SPEED.md, by callgrind and from so many processes (7), one after the other
//!     bench --list                           the stations
//!     bench --check                          the answers of both sides for each station, beside those of the independent program (slow)
//!     bench --count                          each row once by each side
//!     bench --count OP STATION SIDE [TIMES]  one operation of one side, TIMES times (once), for a count of instructions:
//!
//!     valgrind --tool=callgrind --toggle-collect='counted_*' target/release/bench --count verdict chain library
//!
//! OP is read, write, verdict, settings, can_be_safe, key, standing, report or routes; STATION is then a route file; SIDE is library or fast. The table ends
//! with the route files.

#[path = "../../oracle/src/library.rs"]
mod library;

use std::hint::black_box;
use std::io;
use std::process::ExitCode;
use std::time::{Duration, Instant};

use bench::fast::{self, Fast};
use bench::figures::{self, Row, Spread};
use bench::route_files::{RouteFile, route_files};
use bench::stations::{Station, stations};
use bench::{answers, fast_routes, report};
use judge::MAX_ELEMENTS;
use judge::ffi::{self, Filled, Mark, Refusal, Situation};
use library::Library;
use oracle::compare::{Tally, compare};
use oracle::law::LONGEST_KEY;
use oracle::subject::Subject;

/// So many samples are taken of each side, in turns; the median counts.
const SAMPLES: usize = 301;
/// A sample repeats the operation for at least that long: short enough that most samples are not interrupted by other processes.
const SAMPLE: Duration = Duration::from_micros(100);

/// The operations on a station, as [`Station::operations`] names them.
#[derive(Clone, Copy, Debug, PartialEq, Eq)]
enum Operation {
    Read,
    Write,
    Verdict,
    Settings,
    CanBeSafe,
    Key,
    Standing,
    Report,
}

impl Operation {
    const ALL: [Operation; 8] = [
        Operation::Read,
        Operation::Write,
        Operation::Verdict,
        Operation::Settings,
        Operation::CanBeSafe,
        Operation::Key,
        Operation::Standing,
        Operation::Report,
    ];

    fn name(self) -> &'static str {
        match self {
            Operation::Read => "read",
            Operation::Write => "write",
            Operation::Verdict => "verdict",
            Operation::Settings => "settings",
            Operation::CanBeSafe => "can_be_safe",
            Operation::Key => "key",
            Operation::Standing => "standing",
            Operation::Report => "report",
        }
    }
}

#[derive(Clone, Copy, Debug, PartialEq, Eq)]
enum Side {
    Library,
    Fast,
}

/// A station with all that the operations take and fill.
struct Bench {
    file: Vec<u8>,
    situation: Situation,
    marks: Vec<Mark>,
    first: Vec<u16>,
    second: Vec<u16>,
    buffer: Vec<u8>,
}

/// What an operation answers, the free choice of a path aside; both sides have to answer the same.
type Summary = [u64; 6];

impl Bench {
    fn new(station: &Station) -> Bench {
        Bench {
            file: station.file.clone(),
            situation: fast::read(&station.file).situation,
            marks: station.marks.clone(),
            first: vec![0; 512],
            second: vec![0; 512],
            buffer: vec![0; LONGEST_KEY.max(station.file.len())],
        }
    }

    /// Runs one operation of one side once.
    #[inline(always)]
    fn call(&mut self, operation: Operation, side: Side) -> Summary {
        let file = black_box(self.file.as_slice());
        let filled =
            |given: Filled, byte: u8| [given.refusal.number.into(), given.refusal.line.into(), given.length as u64, 0, 0, byte.into()];
        match operation {
            Operation::Read => {
                let given = black_box(match side {
                    Side::Library => ffi::read(file),
                    Side::Fast => fast::read(file),
                });
                let s = &given.situation;
                [given.refusal.number, s.sections, s.plain, s.elements, s.trains, s.train_section[0]].map(u64::from)
            }
            Operation::Write => {
                let situation = black_box(&self.situation);
                let given = match side {
                    Side::Library => ffi::write(situation, &mut self.buffer),
                    Side::Fast => fast::write(situation, &mut self.buffer),
                };
                [given.refusal.number.into(), given.refusal.line.into(), given.subtractions.into(), 0, 0, 0]
            }
            Operation::Verdict => {
                let given = match side {
                    Side::Library => ffi::verdict(file, &mut self.first, &mut self.second),
                    Side::Fast => fast::verdict(file, &mut self.first, &mut self.second),
                };
                let [number, first, second, meeting] = [given.refusal.number, given.first_train, given.second_train, given.meeting];
                [number.into(), first.into(), second.into(), meeting.into(), given.entries.into(), given.looks.into()]
            }
            Operation::Settings => {
                let given = match side {
                    Side::Library => ffi::settings(file, &mut self.buffer),
                    Side::Fast => fast::settings(file, &mut self.buffer),
                };
                [given.refusal.number, given.refusal.line, given.safe, given.proceed, 0, 0].map(u64::from)
            }
            Operation::CanBeSafe => {
                let given = match side {
                    Side::Library => ffi::can_be_safe(file),
                    Side::Fast => fast::can_be_safe(file),
                };
                [given.refusal.number, given.refusal.line, given.yes, 0, 0, 0].map(u64::from)
            }
            // The length of a key depends on the paths shown; the first line does not.
            Operation::Key => {
                let given = match side {
                    Side::Library => ffi::key(file, &mut self.buffer),
                    Side::Fast => fast::key(file, &mut self.buffer),
                };
                [given.refusal.number.into(), given.refusal.line.into(), 0, 0, 0, self.buffer[10].into()]
            }
            Operation::Standing => {
                let given = match side {
                    Side::Library => ffi::standing_answers(file, &mut self.buffer),
                    Side::Fast => answers::standing_answers(file, &mut self.buffer),
                };
                filled(given, self.buffer[26])
            }
            Operation::Report => {
                let marks = black_box(self.marks.as_slice());
                let given = match side {
                    Side::Library => ffi::report(marks, &mut self.buffer),
                    Side::Fast => report::report(marks, &mut self.buffer),
                };
                filled(given, self.buffer[10])
            }
        }
    }

    /// The time of a sample of so many calls.
    fn sample(&mut self, operation: Operation, side: Side, calls: u32) -> Duration {
        let start = Instant::now();
        for _ in 0..calls {
            black_box(self.call(operation, side));
        }
        start.elapsed()
    }

    /// How many calls take as long as a sample has to.
    fn calls_in_a_sample(&mut self, operation: Operation, side: Side) -> u32 {
        let mut calls = 1;
        while self.sample(operation, side, calls) < SAMPLE {
            calls *= 2;
        }
        calls
    }

    /// The median times of a call of the library and of the fast program, in nanoseconds.
    fn measure(&mut self, operation: Operation) -> [f64; 2] {
        let sides = [Side::Library, Side::Fast];
        let calls = sides.map(|side| self.calls_in_a_sample(operation, side));
        let mut times = [vec![], vec![]];
        for _ in 0..SAMPLES {
            for (place, &side) in sides.iter().enumerate() {
                let time = self.sample(operation, side, calls[place]);
                times[place].push(time.as_nanos() as f64 / f64::from(calls[place]));
            }
        }
        times.map(|mut list| {
            list.sort_by(f64::total_cmp);
            list[list.len() / 2]
        })
    }
}

/// The median times of a call for a route file, of the library and of the fast program, in nanoseconds.
fn measure_routes(file: &RouteFile, table: &mut [u8]) -> [f64; 2] {
    let mut times = [vec![], vec![]];
    let mut sample = |side: Side, calls: u32| {
        let start = Instant::now();
        for _ in 0..calls {
            black_box(routes_call(file, table, side));
        }
        start.elapsed()
    };
    for _ in 0..SAMPLES {
        for (place, side) in [Side::Library, Side::Fast].into_iter().enumerate() {
            times[place].push(sample(side, 8).as_nanos() as f64 / 8.0);
        }
    }
    times.map(|mut list| {
        list.sort_by(f64::total_cmp);
        list[list.len() / 2]
    })
}

/// The call whose instructions are counted; callgrind finds it by its name.
#[unsafe(no_mangle)]
#[inline(never)]
fn counted_call(bench: &mut Bench, operation: Operation, side: Side) {
    black_box(bench.call(operation, side));
}

/// The same for a route file.
#[unsafe(no_mangle)]
#[inline(never)]
fn counted_routes(file: &RouteFile, table: &mut [u8], side: Side) {
    black_box(routes_call(file, table, side));
}

/// Fills the table of a route file by one side, and says how many bytes that were.
#[inline(always)]
fn routes_call(file: &RouteFile, table: &mut [u8], side: Side) -> usize {
    let (station, routes) = (black_box(file.station.as_slice()), black_box(file.routes.as_slice()));
    match side {
        Side::Library => ffi::routes(station, routes, table).length,
        Side::Fast => fast_routes::routes(station, routes, table).length,
    }
}

fn shown(nanoseconds: f64) -> String {
    format!("{:.2} us", nanoseconds / 1000.0)
}

/// Every row with its times, of the library and of the fast program, in nanoseconds; first the two answers are compared.
fn each_row(mut see: impl FnMut(&str, &str, [f64; 2])) {
    for operation in Operation::ALL {
        let name = operation.name();
        for station in stations().iter().filter(|station| station.operations.contains(&name)) {
            let mut bench = Bench::new(station);
            let (library, fast) = (bench.call(operation, Side::Library), bench.call(operation, Side::Fast));
            assert_eq!(library, fast, "{name} of {}: the two sides differ", station.name);
            see(name, station.name, bench.measure(operation));
        }
    }
    for file in route_files() {
        let mut tables = [vec![0; 4096], vec![0; 4096]];
        let [one, two] = &mut tables;
        let given = ffi::routes(&file.station, &file.routes, one);
        let fast = fast_routes::routes(&file.station, &file.routes, two);
        assert_eq!(given, fast, "routes of {}: the two sides differ", file.name);
        assert_eq!(tables[0], tables[1], "routes of {}: the two tables differ", file.name);
        see("routes", file.name, measure_routes(&file, &mut tables[0]));
    }
}

fn table() {
    println!("{:<11} {:<12} {:>14} {:>14} {:>8}", "operation", "station", "library", "fast.rs", "ratio");
    each_row(|operation, station, [library, fast]| {
        println!("{operation:<11} {station:<12} {:>14} {:>14} {:>8.2}", shown(library), shown(fast), library / fast);
    });
    println!("median of {SAMPLES} samples of at least {} us each", SAMPLE.as_micros());
}

/// The table of docs/SPEED.md: instructions of one call with the C library's zeroing and without it, and the ratio of times in so many processes.
fn figures(processes: usize) -> io::Result<()> {
    println!(
        "| operation | station | library | fast | ratio | without zeroing: library | fast | ratio | time of the library | ratio of times | lowest to highest |"
    );
    println!("|---|---|---|---|---|---|---|---|---|---|---|");
    let mut highest = [0.0; 3];
    let times = figures::times(processes)?;
    let rows = rows();
    for (row, [library, fast]) in rows.iter().zip(figures::instructions(rows.len())?) {
        let time = Spread::of(times[row].iter().map(|[library, _]| *library));
        let ratio = Spread::of(times[row].iter().map(|[library, fast]| library / fast));
        let all = library.all as f64 / fast.all as f64;
        let rest = library.without_zeroing() as f64 / fast.without_zeroing() as f64;
        for (highest, ratio) in highest.iter_mut().zip([all, rest, ratio.median]) {
            *highest = ratio.max(*highest);
        }
        let [one, two, three, four] = [library.all, fast.all, library.without_zeroing(), fast.without_zeroing()].map(figures::with_commas);
        println!(
            "| {} | {} | {one} | {two} | {all:.2} | {three} | {four} | {rest:.2} | {} | {:.2} | {:.2} to {:.2} |",
            row.0,
            row.1,
            shown(time.median),
            ratio.median,
            ratio.lowest,
            ratio.highest
        );
    }
    println!();
    let [all, rest, time] = highest;
    println!(
        "The highest ratios: {all:.2} by instructions, {rest:.2} without zeroing, {time:.2} by the median of times in {processes} processes."
    );
    Ok(())
}

/// The rows of the table.
fn rows() -> Vec<Row> {
    let stations = stations();
    let of_operation = |operation: &'static str| stations.iter().filter(move |station| station.operations.contains(&operation));
    let judged = Operation::ALL
        .map(Operation::name)
        .into_iter()
        .flat_map(|operation| of_operation(operation).map(move |station| (operation, station.name)));
    let routes = route_files().into_iter().map(|file| ("routes", file.name));
    judged.chain(routes).map(|(operation, station)| (operation.to_string(), station.to_string())).collect()
}

/// Compares both sides with the independent program on every station; whether a situation can be saved, with the number of safe settings.
fn check() {
    for station in stations().iter().filter(|station| !station.file.is_empty()) {
        let mut tally = Tally::default();
        let sides: [(&str, &dyn Subject); 2] = [("the library", &Library), ("the fast program", &Fast)];
        for (side, subject) in sides {
            if let Err(difference) = compare(subject, &station.file, 0, &mut tally) {
                panic!("{side}, {}: {difference}", station.name);
            }
        }
        let saved = ffi::can_be_safe(&station.file);
        assert_eq!(saved, fast::can_be_safe(&station.file), "can_be_safe of {}: the two sides differ", station.name);
        let settings = ffi::settings(&station.file, &mut [0; MAX_ELEMENTS]);
        if settings.refusal == Refusal::NONE {
            assert_eq!(saved.yes, u16::from(settings.safe > 0), "can_be_safe of {}: not what the settings say", station.name);
        }
        println!("{:<12} {} comparisons, 0 differences", station.name, tally.comparisons);
    }
}

fn count(arguments: &[&str]) -> Option<()> {
    let &[operation, station, side, ref times @ ..] = arguments else {
        return None;
    };
    let side = match side {
        "library" => Side::Library,
        "fast" => Side::Fast,
        _ => return None,
    };
    let times: u32 = match times {
        [] => 1,
        [times] => times.parse().ok()?,
        _ => return None,
    };
    if operation == "routes" {
        let file = route_files().into_iter().find(|known| known.name == station)?;
        let mut table = vec![0; 4096];
        for _ in 0..times {
            counted_routes(&file, &mut table, side);
        }
        return Some(());
    }
    let operation = Operation::ALL.into_iter().find(|known| known.name() == operation)?;
    let station = stations().into_iter().find(|known| known.name == station)?;
    let mut bench = Bench::new(&station);
    for _ in 0..times {
        counted_call(&mut bench, operation, side);
    }
    Some(())
}

/// Each row once by each side, the library first.
fn count_all() {
    for operation in Operation::ALL {
        for station in stations().iter().filter(|station| station.operations.contains(&operation.name())) {
            let mut bench = Bench::new(station);
            for side in [Side::Library, Side::Fast] {
                counted_call(&mut bench, operation, side);
            }
        }
    }
    for file in route_files() {
        for side in [Side::Library, Side::Fast] {
            counted_routes(&file, &mut [0; 4096], side);
        }
    }
}

fn main() -> ExitCode {
    let arguments: Vec<String> = std::env::args().skip(1).collect();
    let arguments: Vec<&str> = arguments.iter().map(String::as_str).collect();
    let done = match arguments.as_slice() {
        [] => {
            table();
            Some(())
        }
        ["--times"] => {
            each_row(|operation, station, [library, fast]| println!("{operation}\t{station}\t{library}\t{fast}"));
            Some(())
        }
        ["--figures", processes @ ..] => match processes {
            [] => Some(7),
            [processes] => processes.parse().ok().filter(|number| *number > 0),
            _ => None,
        }
        .map(|processes| figures(processes).expect("the figures are measured")),
        ["--check"] => {
            check();
            Some(())
        }
        ["--list"] => {
            for station in stations() {
                println!("{:<12} {}", station.name, station.about);
            }
            for file in route_files() {
                println!("{:<12} {}", file.name, file.about);
            }
            Some(())
        }
        ["--count"] => {
            count_all();
            Some(())
        }
        ["--count", rest @ ..] => count(rest),
        _ => None,
    };
    if done.is_none() {
        eprintln!(
            "usage: bench | bench --times | bench --figures [PROCESSES] | bench --list | bench --check | bench --count OP STATION SIDE [TIMES]"
        );
        return ExitCode::from(2);
    }
    ExitCode::SUCCESS
}
