//! Tells the linker where the static library is, and stops where it is not there. The build script of a crate that depends on this one sees its folder
//! as `DEP_JUDGE_FOLDER`. The version is that of include/judge.h.

use std::env;
use std::fs;
use std::path::{Path, PathBuf};
use std::process::Command;

/// Returns `MAJOR.MINOR.PATCH`, from the header's three numbers.
fn version(header: &str) -> String {
    let number = |part| {
        header.lines().find_map(|line| line.strip_prefix(&format!("#define JUDGE_VERSION_{part} "))).expect("a number of the version")
    };
    ["MAJOR", "MINOR", "PATCH"].map(number).join(".")
}

/// Returns the folder of libjudge.a: `JUDGE_LIB_DIR`, else that of an installed library of this version, else where `./build judge` puts it. `None` where
/// `JUDGE_LIB_DIR` is empty: no library is wanted.
fn folder(repository: &Path, version: &str) -> Option<PathBuf> {
    if let Some(named) = env::var_os("JUDGE_LIB_DIR") {
        return (!named.is_empty()).then(|| named.into());
    }
    match Command::new("pkg-config").args(["--variable=libdir", &format!("judge = {version}")]).output() {
        Ok(said) if said.status.success() => Some(String::from_utf8_lossy(&said.stdout).trim().into()),
        _ => Some(repository.join("target/staticlib")),
    }
}

fn main() {
    let repository = Path::new(env!("CARGO_MANIFEST_DIR")).join("..");
    let header = repository.join("include/judge.h");
    println!("cargo::rerun-if-changed=build.rs");
    println!("cargo::rerun-if-changed={}", header.display());
    for variable in ["JUDGE_LIB_DIR", "PKG_CONFIG_PATH", "PKG_CONFIG_LIBDIR"] {
        println!("cargo::rerun-if-env-changed={variable}");
    }
    let version = version(&fs::read_to_string(header).expect("include/judge.h"));
    println!("cargo::rustc-env=JUDGE_VERSION={version}");
    let Some(folder) = folder(&repository, &version) else { return };
    let library = folder.join("libjudge.a");
    // Programs are linked again when the library is built again.
    println!("cargo::rerun-if-changed={}", library.display());
    if library.exists() {
        println!("cargo::metadata=folder={}", folder.display());
        println!("cargo::rustc-link-search=native={}", folder.display());
        println!("cargo::rustc-link-lib=static:-bundle=judge");
    } else {
        println!("cargo::error=no {}: run ./build judge, or say in JUDGE_LIB_DIR which folder has it", library.display());
    }
}
