//! The objects of JSON that the commands write, by docs/JSON.md.

use std::ffi::OsStr;

use judge::{Letter, Section};

use crate::ask::{Answer, Judged};
use crate::doc::Words;
use crate::json::Json;
use crate::model::Station;
use crate::register::Finding;
use crate::tables::{Fields, Unanswered};

/// The answer to a station file, as the register has it, with the station, the paths, and all that is said in words.
pub fn explained(name: &OsStr, file: &[u8], answer: &Answer, words: &Words) -> Json {
    let mut fields = Finding::of(file).fields();
    let danger = match answer {
        Answer::Judged(_, Judged { danger, .. }) => danger.as_ref(),
        _ => None,
    };
    fields.extend([
        ("paths", danger.map(|danger| Json::List(danger.paths.iter().map(|path| sections(path)).collect())).into()),
        ("station", answer.station().map(station).into()),
        ("words", words.into()),
    ]);
    Json::of_file(name, fields)
}

fn sections(sections: &[Section]) -> Json {
    Json::list(sections.iter().map(|section| section.get()))
}

fn station(station: &Station) -> Json {
    Json::Object(vec![
        ("letter", if station.filed.letter == Letter::S { "S" } else { "U" }.into()),
        ("sections", station.sections().into()),
        ("plain_lines", station.filed.plain.len().into()),
        ("signals", station.signals().into()),
        ("turnouts", station.turnouts().into()),
        ("open", Json::list(station.open())),
        ("trains", Json::List(station.trains().map(|(_, standing)| sections(standing)).collect())),
    ])
}

/// The answer to another file: its fields, or what was refused with no value in the fields of these names.
pub fn answered(name: &OsStr, names: &[&'static str], fields: Result<Fields, Unanswered>) -> Json {
    let (answer, refusal, why, fields) = match fields {
        Ok(fields) => ("accepted", None, None, fields),
        Err(Unanswered { refusal, why }) => ("refused", refusal, Some(why), names.iter().map(|&name| (name, Json::Null)).collect()),
    };
    let mut all = vec![("answer", answer.into()), ("refusal", refusal.into()), ("why", why.into())];
    all.extend(fields);
    Json::of_file(name, all)
}
