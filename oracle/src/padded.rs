//! Padded numbers (02, item 13): every field of five bytes out of a few, in every field of a station file, of a route file and of a log; and
//! padded files beside their old form.

use judge::ffi::{self, Filled, Refusal};
use oracle::answers;
use oracle::compare::{Tally, compare as compare_all};
use oracle::generate::{padding, stations};
use oracle::law::{self, LINE};
use oracle::random::Random;
use oracle::routes;
use oracle::subject::fill;

use crate::library::Library;

/// A space, zero, another digit, and what is neither.
const BYTES: &[u8] = b" 05-";
/// Station K with its turnout open, one of each sort of line.
const STATION: &[u8] =
    b"S    5    1    2    1\nP    2    1          \nL    1    2    1     \nD    2    3    4    0\nT    1               \n";
const ROUTES: &[u8] = b"R    1    1    2    1\nK    1               \nK    2               \nW    2    1          \n";
const LOG: &[u8] = b"C    5    5    5    5\n";
/// So many stations are padded and asked.
const PADDED: u64 = 1_500;

/// Field number `code` over the bytes.
fn field(mut code: usize) -> [u8; 5] {
    let mut field = [0; 5];
    for byte in &mut field {
        *byte = BYTES[code % BYTES.len()];
        code /= BYTES.len();
    }
    field
}

/// Every file that has one field of another's replaced.
fn with_each_field(file: &[u8], mut each: impl FnMut(&[u8]) -> Result<(), String>) -> Result<u64, String> {
    let mut tried = 0;
    for line in 0..file.len() / LINE {
        for place in 0..4 {
            for code in 0..BYTES.len().pow(5) {
                let mut changed = file.to_vec();
                let start = line * LINE + 1 + 5 * place;
                changed[start..start + 5].copy_from_slice(&field(code));
                each(&changed).map_err(|difference| format!("{:?}: {difference}", String::from_utf8_lossy(&changed)))?;
                tried += 1;
            }
        }
    }
    Ok(tried)
}

/// An answer and the memory that was lent for it, as bytes to be compared.
fn told(answer: &impl std::fmt::Debug, memory: &[u8]) -> Vec<u8> {
    [format!("{answer:?}").as_bytes(), memory].concat()
}

/// The answers to a padded file and to its old form.
fn same_answers(index: u64) -> Result<u64, String> {
    let mut random = Random::new(index);
    let (made, situation) = stations::station(&mut random);
    let file = law::write(&situation, usize::MAX).expect("a station that is written is accepted");
    let mut padded = file.clone();
    padding::pad(&mut random, &mut padded);
    let wrong = |what: &str| Err(format!("padded station {index} ({made}): another {what}"));
    let (plain, read) = (Box::new(ffi::read(&file)), Box::new(ffi::read(&padded)));
    if read.refusal.number != 0 || read.situation != plain.situation {
        return wrong("situation");
    }
    let mut written = vec![7; file.len() + 3];
    let refused = ffi::write(&read.situation, &mut written).refusal.number;
    if refused != 0 || written[..file.len()] != file || written[file.len()..] != [7; 3] {
        return wrong("old form");
    }
    let verdict = |file: &[u8]| {
        let (mut first, mut second) = (vec![0; 512], vec![0; 512]);
        let answer = ffi::verdict(file, &mut first, &mut second);
        told(&(answer, first, second), &[])
    };
    let settings = |file: &[u8]| {
        let mut buffer = vec![7; 256];
        let answer = ffi::settings(file, &mut buffer);
        told(&answer, &buffer)
    };
    let key = |file: &[u8]| {
        let mut buffer = vec![0; judge::KEY_SIZE];
        let answer = ffi::key(file, &mut buffer);
        told(&answer, &buffer)
    };
    let frame = |file: &[u8]| {
        let mut buffer = vec![7; 256];
        let answer = ffi::frame(file, index, &mut buffer);
        told(&answer, &buffer)
    };
    let drawing = |file: &[u8]| told(&ffi::drawing(file, 1, 2, &[1, 2], &[2]), &[]);
    let routes = |file: &[u8]| {
        let mut table = vec![7; 16];
        let answer = ffi::routes(file, ROUTES, &mut table);
        told(&answer, &table)
    };
    let questions: [(&str, &dyn Fn(&[u8]) -> Vec<u8>); 6] = [
        ("verdict", &verdict),
        ("reply", &settings),
        ("key", &key),
        ("frame", &frame),
        ("mark of a drawing", &drawing),
        ("table of conflicts", &routes),
    ];
    for (what, ask) in questions {
        if ask(&padded) != ask(&file) {
            return wrong(what);
        }
    }
    Ok(8)
}

/// The answer, and the memory that held 7 everywhere, have to be what is wanted.
fn same(given: Filled, memory: &[u8], wanted: Result<Vec<u8>, Refusal>) -> Result<(), String> {
    let mut expected = vec![7; memory.len()];
    let answer = fill(wanted, &mut expected);
    if given == answer && memory == expected { Ok(()) } else { Err(format!("{given:?}, {memory:?} in place of {answer:?}, {expected:?}")) }
}

/// How many answers were compared, or the first that differs.
pub fn compare() -> Result<u64, String> {
    let mut tally = Tally::default();
    with_each_field(STATION, |file| compare_all(&Library, file, 0, &mut tally))?;
    let mut compared = tally.comparisons;
    compared += with_each_field(ROUTES, |file| {
        let mut table = [7; 4];
        same(ffi::routes(STATION, file, &mut table), &table, routes::table(STATION, file, 4))
    })?;
    compared += with_each_field(LOG, |log| {
        let mut buffer = [7; LINE];
        same(ffi::standing_answers(log, &mut buffer), &buffer, answers::standing(log))
    })?;
    for index in 0..PADDED {
        compared += same_answers(index)?;
    }
    Ok(compared)
}
