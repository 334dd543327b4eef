//! What the tests of the desk share: running the program, stored outputs, and a checker of XML.

#![allow(dead_code)]

use std::collections::BTreeSet;
use std::ffi::OsStr;
use std::io::Write;
use std::path::{Path, PathBuf};
use std::process::{Command, Output, Stdio};
use std::sync::Mutex;
use std::sync::atomic::{AtomicU64, Ordering};
use std::thread;

/// The repository's root.
pub fn root() -> PathBuf {
    Path::new(env!("CARGO_MANIFEST_DIR")).join("..")
}

/// Runs the program in the repository's root with something on its standard input.
pub fn station_with(arguments: &[impl AsRef<OsStr>], input: &[u8]) -> Output {
    let mut child = Command::new(env!("CARGO_BIN_EXE_station"))
        .args(arguments)
        .current_dir(root())
        .stdin(Stdio::piped())
        .stdout(Stdio::piped())
        .stderr(Stdio::piped())
        .spawn()
        .expect("the program starts");
    // A program that does not read its input may end before it is written.
    let _ = child.stdin.take().expect("an input").write_all(input);
    child.wait_with_output().expect("the program ends")
}

pub fn station(arguments: &[impl AsRef<OsStr>]) -> Output {
    station_with(arguments, b"")
}

/// Standard output, standard error and status.
pub fn told(output: &Output) -> (String, String, i32) {
    let text = |bytes: &[u8]| String::from_utf8(bytes.to_vec()).expect("text");
    (text(&output.stdout), text(&output.stderr), output.status.code().expect("the program is not ended from outside"))
}

/// The stations of stations/, by name, as `stations/NAME.txt`.
pub fn stations() -> Vec<String> {
    let entries = std::fs::read_dir(root().join("stations")).expect("stations/ is there");
    let names = entries.map(|entry| entry.expect("an entry").file_name().into_string().expect("a name"));
    let mut names: Vec<String> = names.filter(|name| name.ends_with(".txt")).map(|name| format!("stations/{name}")).collect();
    names.sort();
    assert!(names.len() > 20);
    names
}

pub fn read(name: &str) -> Vec<u8> {
    std::fs::read(root().join(name)).expect("the file is there")
}

/// Compares a text with a stored one. With the variable STORE set, it is stored in its place.
pub fn compare(name: &str, text: &str) {
    let path = root().join(name);
    if std::env::var_os("STORE").is_some() {
        std::fs::write(&path, text).expect("the file can be stored");
        return;
    }
    let stored = std::fs::read_to_string(&path).unwrap_or_default();
    if stored != text {
        let line =
            stored.lines().zip(text.lines()).position(|(one, two)| one != two).unwrap_or(stored.lines().count().min(text.lines().count()));
        panic!(
            "{name} differs from line {} on:\n  stored: {:?}\n  given:  {:?}\n(STORE=1 stores what is given)",
            line + 1,
            stored.lines().nth(line).unwrap_or(""),
            text.lines().nth(line).unwrap_or("")
        );
    }
}

/// How many generated files are tried: those of `./run-tests N`, 5,000 where nothing else is asked for.
pub fn files() -> u64 {
    std::env::var("STATION_FILES").ok().map_or(5_000, |number| number.replace([',', '_'], "").parse().expect("STATION_FILES is a number"))
}

/// Does something with each number below a limit, on all cores; the first failures are told.
pub fn on_all_cores(limit: u64, check: impl Fn(u64) -> Result<(), String> + Sync) {
    let next = AtomicU64::new(0);
    let failures = Mutex::new(Vec::new());
    let cores = thread::available_parallelism().map_or(1, std::num::NonZero::get);
    thread::scope(|scope| {
        for _ in 0..cores {
            scope.spawn(|| {
                loop {
                    let index = next.fetch_add(1, Ordering::Relaxed);
                    if index >= limit {
                        break;
                    }
                    let outcome = std::panic::catch_unwind(std::panic::AssertUnwindSafe(|| check(index)));
                    let failure = match outcome {
                        Ok(Ok(())) => continue,
                        Ok(Err(failure)) => failure,
                        Err(_) => String::from("it panics"),
                    };
                    let mut failures = failures.lock().expect("no thread panics");
                    failures.push(format!("file {index}: {failure}"));
                    if failures.len() > 20 {
                        next.store(limit, Ordering::Relaxed);
                    }
                }
            });
        }
    });
    let failures = failures.into_inner().expect("no thread panics");
    assert!(failures.is_empty(), "{}", failures.join("\n"));
}

/// A tag of an XML text: its name and its attributes.
#[derive(Clone, Debug)]
pub struct Tag {
    pub name: String,
    pub attributes: Vec<(String, String)>,
}

impl Tag {
    pub fn get(&self, name: &str) -> Option<&str> {
        self.attributes.iter().find(|(key, _)| key == name).map(|(_, value)| value.as_str())
    }
}

/// Checks that a text is well-formed XML, and gives its tags in order: one root, tags closed in order, attributes quoted and once each, no loose `<` or `&`, no
/// character that XML does not have. Names in ids are unique, and what is referred to by name is there.
pub fn xml(text: &str) -> Result<Vec<Tag>, String> {
    let mut tags: Vec<Tag> = Vec::new();
    let mut open: Vec<String> = Vec::new();
    let mut rest = text;
    let mut roots = 0;
    if let Some(bad) = text.chars().find(|c| c.is_control() && !matches!(c, '\n' | '\t' | '\r')) {
        return Err(format!("character {bad:?}"));
    }
    while let Some(start) = rest.find('<') {
        character_data(&rest[..start])?;
        if open.is_empty() && !rest[..start].trim().is_empty() {
            return Err(format!("text outside the root: {:?}", &rest[..start]));
        }
        rest = &rest[start + 1..];
        if tags.is_empty()
            && let Some(after) = rest.strip_prefix("!DOCTYPE html>")
        {
            rest = after;
            continue;
        }
        let end = rest.find('>').ok_or("a tag without an end")?;
        let tag = &rest[..end];
        rest = &rest[end + 1..];
        if let Some(name) = tag.strip_prefix('/') {
            if open.pop().as_deref() != Some(name) {
                return Err(format!("</{name}> closes another tag"));
            }
            continue;
        }
        let (tag, closed) = tag.strip_suffix('/').map_or((tag, false), |tag| (tag, true));
        let parsed = parse_tag(tag)?;
        if open.is_empty() {
            roots += 1;
        }
        if !closed {
            open.push(parsed.name.clone());
        }
        tags.push(parsed);
    }
    character_data(rest)?;
    if !open.is_empty() || roots != 1 || !rest.trim().is_empty() {
        return Err(format!("{roots} roots, {open:?} left open"));
    }
    references(text, &tags)?;
    Ok(tags)
}

fn character_data(text: &str) -> Result<(), String> {
    if text.contains('>') && !text.contains("{") {
        return Err(format!("a loose > in {text:?}"));
    }
    for (place, _) in text.match_indices('&') {
        let after = &text[place..];
        if !["&amp;", "&lt;", "&gt;", "&quot;", "&#39;"].iter().any(|entity| after.starts_with(entity)) {
            return Err(format!("a loose & in {text:?}"));
        }
    }
    Ok(())
}

fn parse_tag(tag: &str) -> Result<Tag, String> {
    let name: String = tag.chars().take_while(|c| c.is_ascii_alphanumeric()).collect();
    if name.is_empty() {
        return Err(format!("a tag without a name: {tag:?}"));
    }
    let mut rest = &tag[name.len()..];
    let mut attributes: Vec<(String, String)> = Vec::new();
    loop {
        let trimmed = rest.trim_start();
        if trimmed.is_empty() {
            break;
        }
        if trimmed.len() == rest.len() {
            return Err(format!("no space before an attribute: {tag:?}"));
        }
        let (key, value) = trimmed.split_once("=\"").ok_or_else(|| format!("an attribute without quotes: {tag:?}"))?;
        let (value, after) = value.split_once('"').ok_or_else(|| format!("an attribute without an end: {tag:?}"))?;
        if !key.chars().all(|c| c.is_ascii_alphanumeric() || c == '-') || attributes.iter().any(|(other, _)| other == key) {
            return Err(format!("attribute {key:?} of {tag:?}"));
        }
        character_data(value)?;
        if value.contains('<') {
            return Err(format!("a loose < in {tag:?}"));
        }
        attributes.push((String::from(key), String::from(value)));
        rest = after;
    }
    Ok(Tag { name, attributes })
}

fn references(text: &str, tags: &[Tag]) -> Result<(), String> {
    let mut ids = BTreeSet::new();
    for id in tags.iter().filter_map(|tag| tag.get("id")) {
        if !ids.insert(id) {
            return Err(format!("id {id} twice"));
        }
    }
    let mut wanted: Vec<&str> = tags.iter().filter_map(|tag| tag.get("aria-labelledby")).flat_map(str::split_whitespace).collect();
    wanted.extend(tags.iter().filter_map(|tag| tag.get("href")).filter_map(|link| link.strip_prefix('#')));
    wanted.extend(text.match_indices("url(#").filter_map(|(place, _)| text[place + 5..].split(')').next()));
    match wanted.into_iter().find(|name| !ids.contains(name)) {
        Some(name) => Err(format!("nothing has the id {name}")),
        None => Ok(()),
    }
}

/// How many groups of a class there are.
pub fn groups(tags: &[Tag], class: &str) -> usize {
    tags.iter().filter(|tag| tag.name == "g" && tag.get("class") == Some(class)).count()
}

/// A value of JSON.
#[derive(Clone, Debug, PartialEq)]
pub enum Json {
    Null,
    Bool(bool),
    Number(u64),
    Text(String),
    List(Vec<Json>),
    Object(Vec<(String, Json)>),
}

impl Json {
    /// The field of an object, which has to be there.
    pub fn field(&self, name: &str) -> &Json {
        let Json::Object(fields) = self else { panic!("no object: {self:?}") };
        &fields.iter().find(|(other, _)| other == name).unwrap_or_else(|| panic!("no field {name} in {fields:?}")).1
    }

    pub fn text(&self) -> &str {
        if let Json::Text(text) = self { text } else { panic!("no text: {self:?}") }
    }

    pub fn list(&self) -> &[Json] {
        if let Json::List(values) = self { values } else { panic!("no list: {self:?}") }
    }

    pub fn numbers(&self) -> Vec<u64> {
        self.list().iter().map(|value| if let Json::Number(number) = value { *number } else { panic!("no number: {value:?}") }).collect()
    }

    /// The names of all fields, of objects inside too.
    pub fn names(&self) -> BTreeSet<String> {
        match self {
            Json::List(values) => values.iter().flat_map(Json::names).collect(),
            Json::Object(fields) => fields.iter().flat_map(|(name, value)| value.names().into_iter().chain([name.clone()])).collect(),
            _ => BTreeSet::new(),
        }
    }
}

/// Reads a value of JSON that is the whole of a text, by RFC 8259; numbers are whole and not negative.
pub fn json(text: &str) -> Json {
    let mut rest = text;
    let value = json_value(&mut rest);
    assert!(rest.is_empty(), "{rest:?} after a value");
    value
}

fn json_value(rest: &mut &str) -> Json {
    fn eat(rest: &mut &str, word: &str) -> bool {
        rest.strip_prefix(word).map(|after| *rest = after).is_some()
    }
    for (word, value) in [("null", Json::Null), ("true", Json::Bool(true)), ("false", Json::Bool(false))] {
        if eat(rest, word) {
            return value;
        }
    }
    if eat(rest, "[") {
        let mut values = Vec::new();
        while !eat(rest, "]") {
            assert!(values.is_empty() || eat(rest, ","), "no comma before {rest:?}");
            values.push(json_value(rest));
        }
        return Json::List(values);
    }
    if eat(rest, "{") {
        let mut fields: Vec<(String, Json)> = Vec::new();
        while !eat(rest, "}") {
            assert!(fields.is_empty() || eat(rest, ","), "no comma before {rest:?}");
            let Json::Text(name) = json_value(rest) else { panic!("no name before {rest:?}") };
            assert!(eat(rest, ":") && fields.iter().all(|(other, _)| *other != name), "no value of {name}, or two");
            fields.push((name, json_value(rest)));
        }
        return Json::Object(fields);
    }
    if eat(rest, "\"") {
        let mut units: Vec<u16> = Vec::new();
        while !eat(rest, "\"") {
            let c = rest.chars().next().expect("a string ends");
            assert!(c >= ' ', "a control character in a string");
            *rest = &rest[c.len_utf8()..];
            if c != '\\' {
                units.extend(c.encode_utf16(&mut [0; 2]).iter());
            } else if eat(rest, "u") {
                units.push(u16::from_str_radix(&rest[..4], 16).expect("four digits"));
                *rest = &rest[4..];
            } else {
                assert!(rest.starts_with(['"', '\\']), "an escape that is not written here: {rest:?}");
                units.push(u16::from(rest.as_bytes()[0]));
                *rest = &rest[1..];
            }
        }
        return Json::Text(String::from_utf16(&units).expect("text"));
    }
    let digits = rest.len() - rest.trim_start_matches(|c: char| c.is_ascii_digit()).len();
    let (number, after) = rest.split_at(digits);
    *rest = after;
    assert!(number == "0" || !number.starts_with('0'), "a number {number:?} before {rest:?}");
    Json::Number(number.parse().expect("a number"))
}

/// The rows of a table by RFC 4180, each ended by CR and LF.
pub fn csv(text: &str) -> Vec<Vec<String>> {
    let mut rows: Vec<Vec<String>> = Vec::new();
    let mut rest = text;
    while !rest.is_empty() {
        let mut row = Vec::new();
        loop {
            let mut field = String::new();
            if let Some(mut quoted) = rest.strip_prefix('"') {
                loop {
                    let (part, after) = quoted.split_once('"').expect("quotes end");
                    field += part;
                    quoted = after;
                    match quoted.strip_prefix('"') {
                        Some(after) => {
                            field.push('"');
                            quoted = after;
                        }
                        None => break,
                    }
                }
                rest = quoted;
            } else {
                let end = rest.find([',', '\r', '\n']).expect("a row ends");
                field += &rest[..end];
                assert!(!field.contains('"'), "quotes in a field without: {field:?}");
                rest = &rest[end..];
            }
            row.push(field);
            match rest.strip_prefix(',') {
                Some(after) => rest = after,
                None => break,
            }
        }
        rest = rest.strip_prefix("\r\n").unwrap_or_else(|| panic!("no CR LF before {rest:?}"));
        rows.push(row);
    }
    assert!(rows.iter().all(|row| row.len() == rows[0].len()), "rows of different lengths");
    rows
}

/// A folder that is gone when the test ends.
pub struct Folder(pub PathBuf);

impl Folder {
    pub fn new(name: &str) -> Folder {
        let path = std::env::temp_dir().join(format!("station-{name}-{}", std::process::id()));
        std::fs::create_dir_all(&path).expect("a folder");
        Folder(path)
    }

    /// Writes a file, and gives its name.
    pub fn with(&self, name: impl AsRef<Path>, bytes: &[u8]) -> PathBuf {
        let path = self.0.join(name);
        std::fs::write(&path, bytes).expect("a file");
        path
    }

    pub fn name(&self) -> &str {
        self.0.to_str().expect("a name")
    }
}

impl Drop for Folder {
    fn drop(&mut self) {
        let _ = std::fs::remove_dir_all(&self.0);
    }
}
