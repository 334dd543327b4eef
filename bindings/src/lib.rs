//! The station judge: a verified judge of railway situations, by documents 01 and 02, as safe functions.
//!
//! A station file tells where trains stand, and how its signals and turnouts are set. The judge says whether two trains can reach one section:
//!
//! ```
//! use judge::{Section, Verdict};
//!
//! let file = b"S    3    1    1    2\nP    1    2          \nL    3    2    1     \nT    1               \nT    3               \n";
//!
//! match judge::owned::verdict(file)? {
//!     Verdict::Safe { .. } => println!("safe"),
//!     Verdict::Dangerous { first, second, meeting, first_path, .. } => {
//!         println!("trains {first} and {second} can meet in section {meeting}: {first_path:?}");
//!         assert_eq!(meeting, Section(2));
//!         assert_eq!(first_path, [Section(1), Section(2)]);
//!     }
//! }
//! # Ok::<(), judge::Refusal>(())
//! ```
//!
//! [`read`] and [`write()`] turn a file into a [`Situation`] and back; [`settings`], [`can_be_safe`] and [`frame`] are about open elements,
//! [`key`] prints the answers, and [`drawing`] marks a candidate's. They are asked of a file's bytes or of a [`Situation`] ([`StationFile`]), whose
//! first refusals are those of [`to_bytes`]:
//!
//! ```
//! use judge::{Section, Situation};
//!
//! let situation = Situation { sections: 3, trains: vec![vec![Section(1)], vec![Section(1)]], ..Situation::default() };
//! assert!(judge::owned::verdict(&situation)?.is_dangerous());
//! # Ok::<(), judge::Refusal>(())
//! ```
//!
//! # Refusals
//!
//! Each function takes any bytes and any lent memory, and gives what was asked for or a numbered [`Refusal`] with the line of its cause:
//!
//! ```
//! let file = b"S    3    1    0    0\nP    1    4          \n";
//! let refusal = judge::read(file).unwrap_err();
//! assert_eq!(refusal.to_string(), "refusal 5, line 2: a section number outside 1 to the number of sections");
//! ```
//!
//! # Lent memory
//!
//! Functions that fill memory take a slice and return the part of it that they filled, which borrows the slice; those of [`owned`] have memory of
//! their own. What lies past that part keeps its content, and a refusal leaves all lent memory unchanged:
//!
//! ```
//! use judge::{Section, Verdict};
//!
//! let file = b"S    3    0    0    0\n";
//! let mut short = [Section(7); 2];
//! let mut long = [Section(7); 3];
//! assert_eq!(judge::verdict(file, &mut short, &mut long).unwrap_err().number(), 9);
//! assert_eq!((short, long), ([Section(7); 2], [Section(7); 3]));
//! ```
//!
//! Only what returns a [`Situation`], a `Vec` or a `String`, and what is asked of a [`Situation`], allocates.
//!
//! # Threads
//!
//! The library keeps nothing between calls, so that any number of threads may call it at once:
//!
//! ```
//! let files: [&[u8]; 2] = [include_bytes!("../../stations/K.txt"), include_bytes!("../../stations/K2.txt")];
//! let keys = std::thread::scope(|scope| files.map(|file| scope.spawn(|| judge::key_text(file))).map(|thread| thread.join().unwrap()));
//! assert_eq!(keys, [include_str!("../../stations/K.key"), include_str!("../../stations/K2.key")]);
//! ```
//!
//! A call takes less than 128 KB of stack, [`routes`] less than 160 KB.
//!
//! # The static library
//!
//! The functions are those of the static library that `./build judge` makes, x86-64 Linux. It is looked for in the folder that `JUDGE_LIB_DIR`
//! names, else where pkg-config finds this version of it installed, else in `target/staticlib` of the repository; inside the repository
//! `.cargo/config.toml` names that folder. Where `JUDGE_LIB_DIR` is empty none is looked for: `cargo doc` and `cargo check` need none, nor does a program
//! that calls none of these functions. [`ffi`] has its C interface as it is.

#![deny(missing_docs, unsafe_code)]
#![warn(clippy::missing_errors_doc, clippy::must_use_candidate)]

mod desk;
#[allow(unsafe_code)]
pub mod ffi;
mod judging;
mod numbers;
pub mod owned;
mod refusal;
mod session;
mod situation;

pub use desk::Desk;
pub use judging::{Counts, Settings, Verdict, can_be_safe, drawing, frame, key, key_counted, key_text, settings, shorter, verdict};
pub use numbers::{Element, Route, Section, State, Train};
pub use refusal::{Cause, Refusal};
pub use session::{ConflictTable, Mark, Placement, place, report, routes, standing_answers, to_s, to_u};
pub use situation::{ElementLine, Letter, Output, Situation, StationFile, read, to_bytes, write, write_counted};

/// The version of the library, as include/judge.h has it.
pub const VERSION: &str = env!("JUDGE_VERSION");
/// The most sections of a station, and the sections of a path list that is always enough.
pub const MAX_SECTIONS: usize = 512;
/// The most P lines.
pub const MAX_PLAIN: usize = 1024;
/// The most elements, and the states of a settings list that is always enough.
pub const MAX_ELEMENTS: usize = 256;
/// The most trains.
pub const MAX_TRAINS: usize = 64;
/// The most sections that a train stands over.
pub const MAX_STANDING: usize = 4;
/// The most open elements that [`settings`] and [`frame`] take, and the most open turnouts that [`can_be_safe`] takes.
pub const MAX_OPEN: usize = 12;
/// The bytes of a line.
pub const LINE_SIZE: usize = 22;
/// The bytes of the longest station file.
pub const MAX_FILE: usize = LINE_SIZE * (1 + MAX_PLAIN + MAX_ELEMENTS + MAX_TRAINS);
/// The bytes of a buffer that [`key`] asks for: one V line and two paths.
pub const KEY_SIZE: usize = LINE_SIZE * (1 + 2 * MAX_SECTIONS);
/// The most routes of a route file.
pub const MAX_ROUTES: usize = 64;
/// The bytes of a table of conflicts that is always enough.
pub const TABLE_SIZE: usize = MAX_ROUTES * MAX_ROUTES;
/// The bytes of the longest log of answers: 1,000 lines.
pub const MAX_LOG: usize = LINE_SIZE * 1000;
/// The most mark records of a session.
pub const MAX_MARKS: usize = 999;
/// The bytes of the longest report: an M line for each of 999 candidates, and the Z line.
pub const REPORT_SIZE: usize = LINE_SIZE * (MAX_MARKS + 1);
