//! Stops where the library is missing, before the linker names each of its functions (the build script of `judge` says what to run), and takes from the
//! library the sum of the logic that it is proved in.

use std::env;
use std::fs;
use std::path::Path;

/// The sums of the logic that the compiler left in a library.
fn logics(library: &[u8]) -> Vec<String> {
    const MARK: &[u8] = b"rattle logic=";
    let mut found: Vec<String> = Vec::new();
    for place in library.windows(MARK.len()).enumerate().filter_map(|(place, bytes)| (bytes == MARK).then_some(place)) {
        let sum: String = library[place + MARK.len()..].iter().map(|&byte| char::from(byte)).take_while(char::is_ascii_hexdigit).collect();
        if !found.contains(&sum) {
            found.push(sum);
        }
    }
    found
}

fn main() {
    println!("cargo::rerun-if-changed=build.rs");
    println!("cargo::rerun-if-env-changed=DEP_JUDGE_FOLDER");
    let Some(folder) = env::var_os("DEP_JUDGE_FOLDER") else {
        println!("cargo::error=libjudge.a is missing: run ./build judge");
        return;
    };
    let library = Path::new(&folder).join("libjudge.a");
    println!("cargo::rerun-if-changed={}", library.display());
    match logics(&fs::read(&library).unwrap_or_default()).as_slice() {
        [logic] => println!("cargo::rustc-env=JUDGE_LOGIC={logic}"),
        _ => println!("cargo::error={} bears no mark of the logic that it is proved in: run ./build judge", library.display()),
    }
}
