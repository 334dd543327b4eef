//! What the table of docs/SPEED.md is made of: instructions counted by callgrind, and times of several processes.

use std::collections::BTreeMap;
use std::fs;
use std::io;
use std::process::Command;

/// An operation and its station.
pub type Row = (String, String);

/// The instructions of one call, and those of them that zero memory in the C library: callgrind counts an instruction for each byte there.
#[derive(Clone, Copy)]
pub struct Instructions {
    pub all: u64,
    pub zeroing: u64,
}

impl Instructions {
    pub fn without_zeroing(self) -> u64 {
        self.all - self.zeroing
    }
}

fn failed(why: String) -> io::Error {
    io::Error::other(why)
}

/// The output of this program, called with these arguments by another program or by none.
fn called(caller: &[&str], arguments: &[&str]) -> io::Result<String> {
    let itself = std::env::current_exe()?;
    let mut words = caller.iter().map(|word| word.as_ref()).chain([itself.as_os_str()]).chain(arguments.iter().map(|word| word.as_ref()));
    let output = Command::new(words.next().expect("this program is the last word")).args(words).output()?;
    if !output.status.success() {
        return Err(failed(format!("{caller:?} {arguments:?}: {}{}", output.status, String::from_utf8_lossy(&output.stderr))));
    }
    Ok(String::from_utf8_lossy(&output.stdout).into_owned())
}

/// Counts one call of each side for each of so many rows, all in one process: the library, then the fast program.
pub fn instructions(rows: usize) -> io::Result<Vec<[Instructions; 2]>> {
    let folder = std::env::temp_dir().join(format!("bench-costs-{}", std::process::id()));
    fs::create_dir(&folder)?;
    let costs = folder.join("costs");
    let out = format!("--callgrind-out-file={}", costs.display());
    let counted_functions = ["--toggle-collect=counted_*", "--dump-after=counted_call", "--dump-after=counted_routes"];
    called(&[&["valgrind", "--tool=callgrind", &out], &counted_functions[..]].concat(), &["--count"])?;
    // The costs of each call are in a file of their own, numbered from 1.
    let of_call = |call: usize| -> io::Result<Instructions> {
        let text = fs::read_to_string(costs.with_extension(call.to_string()))?;
        counted(&text).ok_or_else(|| failed(format!("no costs of call {call}")))
    };
    let counts = (0..rows).map(|row| Ok([of_call(2 * row + 1)?, of_call(2 * row + 2)?])).collect();
    fs::remove_dir_all(&folder)?;
    counts
}

/// The sum of the costs of all functions, and of those named like the C library's `memset`. A line behind `calls=` has what a called function cost, which
/// is counted where that function stands. A name is written once, with a number that stands for it from then on.
fn counted(text: &str) -> Option<Instructions> {
    let mut zeroing_functions = vec![];
    let (mut is_zeroing, mut is_call) = (false, false);
    let mut sum = Instructions { all: 0, zeroing: 0 };
    for line in text.lines() {
        if let Some((key, function)) = line.split_once("fn=").filter(|(key, _)| ["", "c"].contains(key)) {
            let number = function.split(' ').next()?;
            if function.contains("memset") {
                zeroing_functions.push(number);
            }
            if key.is_empty() {
                is_zeroing = zeroing_functions.contains(&number);
            }
        } else if line.starts_with("calls=") {
            is_call = true;
        } else if line.starts_with(|first: char| first.is_ascii_digit() || "+-*".contains(first)) {
            let cost: u64 = line.split(' ').nth(1)?.parse().ok()?;
            if !is_call {
                sum.all += cost;
                sum.zeroing += if is_zeroing { cost } else { 0 };
            }
            is_call = false;
        }
    }
    (sum.all > 0).then_some(sum)
}

/// The times of the library and of the fast program in several processes, in nanoseconds, for each row.
pub fn times(processes: usize) -> io::Result<BTreeMap<Row, Vec<[f64; 2]>>> {
    let mut times: BTreeMap<Row, Vec<[f64; 2]>> = BTreeMap::new();
    for process in 1..=processes {
        eprintln!("times, process {process} of {processes}");
        for line in called(&[], &["--times"])?.lines() {
            let [operation, station, library, fast] = line.split('\t').collect::<Vec<_>>()[..] else {
                return Err(failed(format!("no times: {line}")));
            };
            let number = |text: &str| text.parse().map_err(|_| failed(format!("no time: {text}")));
            times.entry((operation.into(), station.into())).or_default().push([number(library)?, number(fast)?]);
        }
    }
    Ok(times)
}

/// The median, the lowest and the highest of some numbers.
#[derive(Clone, Copy)]
pub struct Spread {
    pub median: f64,
    pub lowest: f64,
    pub highest: f64,
}

impl Spread {
    pub fn of(numbers: impl Iterator<Item = f64>) -> Spread {
        let mut numbers: Vec<f64> = numbers.collect();
        numbers.sort_by(f64::total_cmp);
        Spread { median: numbers[numbers.len() / 2], lowest: numbers[0], highest: numbers[numbers.len() - 1] }
    }
}

/// A number with a comma before each three digits.
pub fn with_commas(number: u64) -> String {
    let digits = number.to_string();
    let mut text = String::new();
    for (place, digit) in digits.chars().enumerate() {
        if place > 0 && (digits.len() - place) % 3 == 0 {
            text.push(',');
        }
        text.push(digit);
    }
    text
}

#[cfg(test)]
mod checks {
    use super::*;

    #[test]
    fn costs_are_added_up() {
        let text = "events: Ir\n\nfn=(1) judge\n10 3\n+1 4\ncfn=(2) __memset_avx2\ncalls=1 0\n* 9\n+1 2\n\nfn=(2)\n0 9\n\nfn=(1)\n-2 1\nsummary: 19\n";
        let sum = counted(text).unwrap();
        assert_eq!((sum.all, sum.zeroing, sum.without_zeroing()), (19, 9, 10));
    }

    #[test]
    fn spread_and_commas() {
        let spread = Spread::of([3.0, 1.0, 2.0].into_iter());
        assert_eq!((spread.median, spread.lowest, spread.highest), (2.0, 1.0, 3.0));
        assert_eq!([999, 1000, 12_345_678].map(with_commas), ["999", "1,000", "12,345,678"]);
    }
}
