//! Judges the station files named on the command line: prints the verdict with both paths where no element is open, else the chosen setting; or the
//! refusal in words. Without a name it prints the library's version.
//!
//!     cargo run --offline --package judge --example judge_file stations/K.txt

use std::process::ExitCode;
use std::{env, fs};

use judge::{Cause, Refusal, Section, Settings, Verdict, owned};

/// Returns the words of an answer.
fn judged(file: &[u8]) -> Result<String, Refusal> {
    let numbers = |path: Vec<Section>| path.into_iter().map(u16::from).collect::<Vec<u16>>();
    match owned::verdict(file) {
        Ok(Verdict::Safe { counts }) => Ok(format!("safe, entries {}, looks {}", counts.entries, counts.looks)),
        Ok(Verdict::Dangerous { first, second, meeting, first_path, second_path, counts }) => Ok(format!(
            "dangerous, entries {}, looks {}: train {first} by {:?} and train {second} by {:?} to section {meeting}",
            counts.entries,
            counts.looks,
            numbers(first_path),
            numbers(second_path)
        )),
        Err(refusal) if refusal.cause() == Cause::ElementOpen => Ok(match owned::settings(file)? {
            Settings::NoneSafe => String::from("no safe setting"),
            Settings::Best { safe, proceed, setting } => {
                let states: Vec<u8> = setting.into_iter().map(u8::from).collect();
                format!("{safe} safe settings, proceed count {proceed}, chosen {states:?}")
            }
        }),
        Err(refusal) => Err(refusal),
    }
}

fn main() -> ExitCode {
    let mut status = ExitCode::SUCCESS;
    let names: Vec<String> = env::args().skip(1).collect();
    if names.is_empty() {
        println!("{}", judge::VERSION);
    }
    for name in names {
        match fs::read(&name) {
            Ok(file) => println!("{name}: {}", judged(&file).unwrap_or_else(|refusal| refusal.to_string())),
            Err(error) => {
                eprintln!("{name}: {error}");
                status = ExitCode::from(2);
            }
        }
    }
    status
}
