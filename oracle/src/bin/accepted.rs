//! Accepted files for the law as a logic program, tests/asp.
//!
//!     accepted FOLDER N
//!
//! writes the first N of the generated files whose key is V or Q into the folder, file 93 as 00093.txt.

use std::path::Path;
use std::process::ExitCode;

use oracle::generate;
use oracle::law;

fn main() -> ExitCode {
    let given: Vec<String> = std::env::args().skip(1).collect();
    let [folder, number] = given.as_slice() else {
        eprintln!("usage: accepted FOLDER N");
        return ExitCode::from(2);
    };
    let Ok(number) = number.parse() else { return ExitCode::from(2) };
    let answered = |file: &[u8]| law::settings_refusal(&law::read(file), usize::MAX).is_none();
    let files = (0..).map(|index| (index, generate::case(index).file)).filter(|(_, file)| answered(file));
    for (index, file) in files.take(number) {
        std::fs::write(Path::new(folder).join(format!("{index:05}.txt")), file).expect("the folder can be written to");
    }
    ExitCode::SUCCESS
}
