//! The command line.

use std::ffi::{OsStr, OsString};
use std::os::unix::ffi::OsStrExt;

use judge::{Letter, State};

use crate::check::{Form, Job};
use crate::commands::{self, COMMANDS, Command, HELP, OUTPUT, QUIET, VERSION};
use crate::lines::Placing;
use crate::nearest::nearest;
use crate::source::{escaped, shown};
use crate::{completions, manual};

/// What is asked for.
#[derive(Clone, Debug, PartialEq, Eq)]
pub enum Request {
    /// A text that no file is read for: help, version, manual, completions.
    Told(String),
    Key {
        files: Vec<OsString>,
        named: bool,
        counts: bool,
    },
    Explain {
        files: Vec<OsString>,
        questions: Questions,
        shape: Shape,
    },
    Draw {
        file: OsString,
        look: Look,
    },
    Page {
        files: Vec<OsString>,
        look: Look,
    },
    /// A page that steps through the settings of one file.
    Walk {
        file: OsString,
    },
    Check(Job),
    Routes {
        station: OsString,
        routes: OsString,
        why: bool,
        shape: Shape,
    },
    Answers {
        log: OsString,
        shape: Shape,
    },
    Report {
        marks: OsString,
        shape: Shape,
    },
    Convert {
        file: OsString,
        to: Letter,
    },
    Place {
        placing: Placing,
        shape: Shape,
    },
}

/// What an answer is written as.
#[derive(Clone, Copy, Debug, PartialEq, Eq)]
pub enum Shape {
    Words,
    Json,
    /// Lines of 22 bytes.
    Lines,
}

impl Request {
    /// The names of what is read.
    pub fn names(&self) -> Vec<&OsStr> {
        match self {
            Request::Told(_) | Request::Place { .. } => vec![],
            Request::Key { files, .. } | Request::Explain { files, .. } | Request::Page { files, .. } => {
                files.iter().map(OsString::as_os_str).collect()
            }
            Request::Routes { station, routes, .. } => vec![station, routes],
            Request::Check(job) => job.names.iter().map(OsString::as_os_str).collect(),
            Request::Draw { file: name, .. } | Request::Walk { file: name } | Request::Convert { file: name, .. } => vec![name],
            Request::Answers { log: name, .. } | Request::Report { marks: name, .. } => vec![name],
        }
    }
}

/// Further questions about a file.
#[derive(Clone, Debug, Default, PartialEq, Eq)]
pub struct Questions {
    pub drawing: Option<Drawing>,
    pub can_be_safe: bool,
    pub frames: Option<Frames>,
    pub setting: Option<Vec<State>>,
    pub old_desks: bool,
    pub what_if: bool,
}

/// Two paths that a candidate drew.
#[derive(Clone, Debug, PartialEq, Eq)]
pub struct Drawing {
    pub trains: [u16; 2],
    pub paths: [Vec<u16>; 2],
}

/// Frames of the walk through all settings.
#[derive(Clone, Copy, Debug, PartialEq, Eq)]
pub enum Frames {
    All,
    /// First and last, both included.
    Span(u64, u64),
}

/// What a picture shows.
#[derive(Clone, Debug, Default, PartialEq, Eq)]
pub struct Look {
    pub shown: Shown,
    pub drawing: Option<Drawing>,
    /// The elements that keep the station safe are marked.
    pub what_if: bool,
}

/// Which states a picture shows.
#[derive(Clone, Debug, Default, PartialEq, Eq)]
pub enum Shown {
    /// Those of the file; of open elements, those of the setting that the library chose.
    #[default]
    Chosen,
    /// Those of the file alone.
    Filed,
    Frame(u64),
    Setting(Vec<State>),
}

/// A wrong use, in words.
pub type Wrong = String;

/// A command line.
#[derive(Clone, Debug, PartialEq, Eq)]
pub struct Call {
    pub request: Request,
    /// The file that the answer goes to; without one it goes to the standard output.
    pub output: Option<OsString>,
    /// Whether nothing is told but the answer and what is wrong.
    pub quiet: bool,
}

/// Reads a command line, without the program's name.
pub fn parse(arguments: &[OsString]) -> Result<Call, Wrong> {
    let Some((first, rest)) = arguments.split_first() else {
        return Err(String::from("no command is given"));
    };
    let told = |text: String| Ok(Call { request: Request::Told(text), output: None, quiet: false });
    if HELP.names().any(|name| first == name) {
        return told(commands::overview());
    }
    if first == VERSION.name {
        return told(version());
    }
    let command = command_named(first)?;
    if rest.iter().take_while(|text| *text != "--").any(|text| HELP.names().any(|name| text == name)) {
        return told(command.help());
    }
    let mut given = Given::read(command, rest)?;
    let output = given.take(OUTPUT.name).and_then(|values| values.into_iter().next());
    let quiet = given.flag(QUIET.name);
    let request = match command.name {
        "key" => {
            let named = given.flag("--names");
            let files = given.files()?;
            if files.len() > 1 && !named {
                return Err(String::from("more than one file is given; with --names each key stands under the name of its file"));
            }
            Request::Key { counts: given.flag("--counts"), files, named }
        }
        "explain" => Request::Explain { questions: given.questions()?, files: given.files()?, shape: given.shape()? },
        "draw" => Request::Draw { look: given.look()?, file: given.one("FILE")? },
        "page" if given.flag("--frames") => Request::Walk { file: given.one("FILE")? },
        "page" => given.page()?,
        "check" => Request::Check(given.job()?),
        "routes" => {
            let why = given.flag("--why");
            let [station, routes] = given.two("STATION and ROUTES")?;
            Request::Routes { station, routes, why, shape: given.shape()? }
        }
        "answers" => Request::Answers { log: given.one("LOG")?, shape: given.shape()? },
        "report" => Request::Report { marks: given.one("MARKS")?, shape: given.shape()? },
        "convert" => Request::Convert { to: given.letter()?, file: given.one("FILE")? },
        "place" => Request::Place { placing: given.placing()?, shape: given.shape()? },
        "manual" => Request::Told(manual::manual()),
        "completions" => {
            let shell = given.one("SHELL")?;
            let script = shell.to_str().and_then(completions::of_shell);
            Request::Told(script.ok_or_else(|| format!("{}: completions are for bash, zsh and fish", shown(&shell)))?)
        }
        _ => match given.names.pop() {
            None => Request::Told(commands::overview()),
            Some(name) => Request::Told(command_named(&name)?.help()),
        },
    };
    given.end()?;
    Ok(Call { request, output, quiet })
}

/// What `--version` says.
fn version() -> String {
    format!("station {}, proved in logic {}\n", judge::VERSION, env!("JUDGE_LOGIC"))
}

/// The command of a name; where there is none, with one that may have been meant.
fn command_named(name: &OsStr) -> Result<&'static Command, Wrong> {
    let word = name.to_string_lossy();
    Command::named(&word).ok_or_else(|| {
        let meant = nearest(&word, COMMANDS.iter().map(|command| command.name));
        format!("{} is no command{}", shown(name), meant_words(meant))
    })
}

/// The question whether a word was meant.
fn meant_words(meant: Option<&str>) -> String {
    meant.map_or(String::new(), |meant| format!(" (did you mean {meant}?)"))
}

/// What stands on the command line after the command.
struct Given {
    command: &'static Command,
    /// Options with their values, each taken out when it is asked for.
    options: Vec<(&'static str, Vec<OsString>)>,
    names: Vec<OsString>,
}

impl Given {
    fn read(command: &'static Command, arguments: &[OsString]) -> Result<Given, Wrong> {
        let mut given = Given { command, options: vec![], names: vec![] };
        let mut rest = arguments.iter();
        while let Some(argument) = rest.next() {
            if argument == "--" {
                given.names.extend(rest.by_ref().cloned());
            } else if argument == "-" || !argument.as_bytes().starts_with(b"-") {
                given.names.push(argument.clone());
            } else {
                given.option(argument, &mut rest)?;
            }
        }
        Ok(given)
    }

    /// Reads an option, with the values that follow it; a value may be joined to it, as in `--to=S`.
    fn option<'a>(&mut self, argument: &OsStr, rest: &mut impl Iterator<Item = &'a OsString>) -> Result<(), Wrong> {
        let bytes = argument.as_bytes();
        let (name, joined) = match bytes.iter().position(|&byte| byte == b'=') {
            Some(place) => (OsStr::from_bytes(&bytes[..place]), Some(OsStr::from_bytes(&bytes[place + 1..]))),
            None => (argument, None),
        };
        let word = name.to_string_lossy();
        let Some(option) = self.command.option(&word) else {
            let meant = nearest(&word, self.command.all_options().map(|option| option.name));
            return Err(format!("{} is no option of {}{}", shown(name), self.command.name, meant_words(meant)));
        };
        if self.options.iter().any(|(other, _)| *other == option.name) {
            return Err(format!("{} is given twice", option.name));
        }
        let mut values: Vec<OsString> = joined.into_iter().map(OsString::from).collect();
        while values.len() < option.values.len() {
            let wanted = if option.values.len() == 1 { "a value" } else { "two values" };
            values.push(rest.next().ok_or_else(|| format!("{} asks for {wanted}", option.name))?.clone());
        }
        if values.len() > option.values.len() {
            return Err(format!("{} takes no value", option.name));
        }
        self.options.push((option.name, values));
        Ok(())
    }

    fn take(&mut self, option: &str) -> Option<Vec<OsString>> {
        let place = self.options.iter().position(|(name, _)| *name == option)?;
        Some(self.options.remove(place).1)
    }

    fn flag(&mut self, option: &str) -> bool {
        self.take(option).is_some()
    }

    /// The values of an option as text.
    fn values(&mut self, option: &str) -> Result<Option<Vec<String>>, Wrong> {
        let text = |value: OsString| value.into_string().map_err(|value| format!("{option} {}: that is no text", shown(&value)));
        self.take(option).map(|values| values.into_iter().map(text).collect()).transpose()
    }

    fn value(&mut self, option: &str) -> Result<Option<String>, Wrong> {
        Ok(self.values(option)?.and_then(|values| values.into_iter().next()))
    }

    /// The names, at least one; the standard input only once.
    fn files(&mut self) -> Result<Vec<OsString>, Wrong> {
        let names = std::mem::take(&mut self.names);
        if names.is_empty() {
            return Err(String::from("no file is given"));
        }
        if names.iter().filter(|name| *name == "-").count() > 1 {
            return Err(String::from("the standard input (-) is given twice"));
        }
        Ok(names)
    }

    fn one(&mut self, what: &str) -> Result<OsString, Wrong> {
        let mut names = self.files().map_err(|_| format!("{what} is not given"))?;
        if names.len() > 1 {
            return Err(format!("{} is too much: one {what} is wanted", shown(&names[1])));
        }
        Ok(names.remove(0))
    }

    fn two(&mut self, what: &str) -> Result<[OsString; 2], Wrong> {
        let names = self.files()?;
        names.try_into().map_err(|_| format!("{what} are wanted"))
    }

    fn job(&mut self) -> Result<Job, Wrong> {
        let form = match (self.flag("--csv"), self.flag("--json")) {
            (true, true) => return Err(String::from("only one of --csv and --json can be given")),
            (true, false) => Form::Csv,
            (false, true) => Form::Json,
            (false, false) => Form::Counts,
        };
        let names = self.files().map_err(|wrong| wrong.replace("file", "folder or file"))?;
        let ending = self.value("--ending")?.unwrap_or_default();
        Ok(Job { names, ending, all: self.flag("--all"), zero: self.flag("--null"), form, heading: !self.flag("--no-heading") })
    }

    fn shape(&mut self) -> Result<Shape, Wrong> {
        match (self.flag("--json"), self.flag("--lines")) {
            (true, true) => Err(String::from("only one of --json and --lines can be given")),
            (true, false) => Ok(Shape::Json),
            (false, true) => Ok(Shape::Lines),
            (false, false) => Ok(Shape::Words),
        }
    }

    /// The value of an option that has to be given.
    fn needed(&mut self, option: &str) -> Result<String, Wrong> {
        self.value(option)?.ok_or_else(|| format!("{option} is not given"))
    }

    fn letter(&mut self) -> Result<Letter, Wrong> {
        match self.needed("--to")?.as_str() {
            "S" | "s" => Ok(Letter::S),
            "U" | "u" => Ok(Letter::U),
            other => Err(format!("--to {}: the letter is S or U", escaped(OsStr::new(other)))),
        }
    }

    fn placing(&mut self) -> Result<Placing, Wrong> {
        let mut number_of = |option: &str| {
            let text = self.needed(option)?;
            number(&text).ok_or_else(|| format!("{option} {}: that is no number from 0 to {}", escaped(OsStr::new(&text)), u64::MAX))
        };
        let paper = number_of("--paper")?;
        // What is out of every range stays so.
        let [sections, trains] = [number_of("--sections")?, number_of("--trains")?].map(|number| u16::try_from(number).unwrap_or(u16::MAX));
        Ok(Placing { paper, sections, trains })
    }

    fn questions(&mut self) -> Result<Questions, Wrong> {
        let drawing = self.drawing()?;
        let frames = match self.value("--frames")? {
            Some(text) => Some(frames(&text)?),
            None => None,
        };
        let setting = match self.value("--setting")? {
            Some(text) => Some(setting(&text)?),
            None => None,
        };
        Ok(Questions {
            drawing,
            can_be_safe: self.flag("--can-be-safe"),
            frames,
            setting,
            old_desks: self.flag("--old-desks"),
            what_if: self.flag("--what-if"),
        })
    }

    fn drawing(&mut self) -> Result<Option<Drawing>, Wrong> {
        self.values("--drawing")?.map(|values| drawing(&values)).transpose()
    }

    fn look(&mut self) -> Result<Look, Wrong> {
        let look = Look { shown: self.shown()?, drawing: self.drawing()?, what_if: self.flag("--what-if") };
        match (&look.shown, &look.drawing) {
            (Shown::Filed, Some(_)) => Err(String::from("a drawing is marked under a setting or a frame, and not with --filed")),
            _ => Ok(look),
        }
    }

    /// A page; of one file, where a candidate's setting or drawing is given.
    fn page(&mut self) -> Result<Request, Wrong> {
        let look = self.look()?;
        let files = match look.shown == Shown::Chosen && look.drawing.is_none() {
            true => self.files()?,
            false => vec![self.one("FILE")?],
        };
        Ok(Request::Page { files, look })
    }

    fn shown(&mut self) -> Result<Shown, Wrong> {
        let mut wanted = Vec::new();
        if self.flag("--filed") {
            wanted.push(Shown::Filed);
        }
        if let Some(text) = self.value("--setting")? {
            wanted.push(Shown::Setting(setting(&text)?));
        }
        if let Some(text) = self.value("--frame")? {
            wanted.push(Shown::Frame(number(&text).ok_or_else(|| format!("--frame {text}: a frame is a number, counted from 0"))?));
        }
        if wanted.len() > 1 {
            return Err(String::from("only one of --filed, --setting and --frame can be shown"));
        }
        Ok(wanted.pop().unwrap_or(Shown::Chosen))
    }

    /// Nothing may be left.
    fn end(self) -> Result<(), Wrong> {
        match (self.options.first(), self.names.first()) {
            (Some((option, _)), _) => Err(format!("{option} does not go with the other options")),
            (_, Some(name)) => Err(format!("{} is too much", shown(name))),
            (None, None) => Ok(()),
        }
    }
}

fn number(text: &str) -> Option<u64> {
    if text.bytes().all(|byte| byte.is_ascii_digit()) { text.parse().ok() } else { None }
}

fn drawing(values: &[String]) -> Result<Drawing, Wrong> {
    let path = |text: &String| -> Option<(u16, Vec<u16>)> {
        let (train, list) = text.split_once(':')?;
        let small = |text: &str| number(text).and_then(|number| u16::try_from(number).ok());
        let sections: Option<Vec<u16>> = list.split([',', ' ']).filter(|part| !part.is_empty()).map(small).collect();
        Some((small(train)?, sections?))
    };
    let mut paths = Vec::new();
    for text in values {
        paths.push(path(text).ok_or_else(|| format!("--drawing {text}: a path is written as TRAIN:SECTION,SECTION,.. as in 1:1,2,3,5"))?);
    }
    match <[(u16, Vec<u16>); 2]>::try_from(paths) {
        Ok([(one, first), (two, second)]) => Ok(Drawing { trains: [one, two], paths: [first, second] }),
        Err(_) => Err(String::from("--drawing asks for two paths, as in --drawing 1:1,2,3,5 2:4,5")),
    }
}

fn frames(text: &str) -> Result<Frames, Wrong> {
    /// More would be no reading.
    const MOST: u64 = 4096;
    if text == "all" {
        return Ok(Frames::All);
    }
    let span = match text.split_once('-') {
        Some((first, last)) => number(first).zip(number(last)),
        None => number(text).map(|frame| (frame, frame)),
    };
    match span {
        Some((first, last)) if first <= last && last - first < MOST => Ok(Frames::Span(first, last)),
        Some((first, last)) if first <= last => Err(format!("--frames {text}: at most {MOST} frames are shown at once")),
        _ => Err(format!("--frames {text}: frames are all, a number, or two numbers as in 0-15")),
    }
}

fn setting(text: &str) -> Result<Vec<State>, Wrong> {
    let states: Option<Vec<State>> = text
        .chars()
        .filter(|c| *c != ',' && *c != ' ')
        .map(|digit| match digit {
            '1' => Some(State::One),
            '2' => Some(State::Two),
            _ => None,
        })
        .collect();
    states
        .filter(|states| !states.is_empty())
        .ok_or_else(|| format!("--setting {text}: a setting is a digit, 1 or 2, for each open element"))
}

#[cfg(test)]
mod tests {
    use super::*;

    fn parsed(line: &str) -> Result<Request, Wrong> {
        parse(&line.split_whitespace().map(OsString::from).collect::<Vec<_>>()).map(|call| call.request)
    }

    fn names(names: &[&str]) -> Vec<OsString> {
        names.iter().map(OsString::from).collect()
    }

    #[test]
    fn commands_and_their_files() {
        assert_eq!(parsed("key --names a.txt -"), Ok(Request::Key { files: names(&["a.txt", "-"]), named: true, counts: false }));
        assert_eq!(parsed("page -- --odd"), Ok(Request::Page { files: names(&["--odd"]), look: Look::default() }));
        assert_eq!(parsed("check --ending .txt folder"), parsed("check folder --ending=.txt"));
        assert_eq!(parsed("help draw"), parsed("draw --help"));
        assert_eq!(parsed("help draw"), Ok(Request::Told(Command::named("draw").unwrap().help())));
        let call = parse(&names(&["key", "-o", "K.key", "--quiet", "K.txt"])).unwrap();
        assert_eq!((call.output, call.quiet), (Some(OsString::from("K.key")), true));
    }

    /// Every option of the table is read, with every command.
    #[test]
    fn the_table_is_the_command_line() {
        for command in COMMANDS {
            for option in command.options {
                let mut given =
                    Given::read(command, &names(&[&[option.name], vec!["1"; option.values.len()].as_slice()].concat())).unwrap();
                assert!(given.flag(option.name) && given.end().is_ok(), "{} {}", command.name, option.name);
            }
            assert!(parse(&names(&[command.name, "--no-such-option"])).unwrap_err().contains("is no option"));
            assert!(command.help().lines().all(|line| line.len() <= 100), "{}", command.name);
        }
    }

    #[test]
    fn what_was_meant_is_asked() {
        for (line, meant) in [("explian K.txt", "explain"), ("help chek", "check"), ("explain --drawin K.txt", "--drawing")] {
            assert!(parsed(line).unwrap_err().ends_with(&format!(" (did you mean {meant}?)")), "{line}");
        }
    }

    #[test]
    fn further_questions() {
        let Ok(Request::Explain { questions, .. }) = parsed("explain --drawing 1:1,2,3,5 2:4,5 --frames 0-3 --setting 12 K.txt") else {
            panic!("the questions are well put");
        };
        assert_eq!(questions.drawing, Some(Drawing { trains: [1, 2], paths: [vec![1, 2, 3, 5], vec![4, 5]] }));
        assert_eq!(questions.frames, Some(Frames::Span(0, 3)));
        assert_eq!(questions.setting, Some(vec![State::One, State::Two]));
        assert_eq!(drawing(&[String::from("1:"), String::from("2:4")]).map(|drawing| drawing.paths), Ok([vec![], vec![4]]));
    }

    #[test]
    fn wrong_use_is_told() {
        for line in [
            "",
            "keys K.txt",
            "key",
            "key - -",
            "key a.txt b.txt",
            "explain --json --lines K.txt",
            "check --csv --json .",
            "convert K.txt",
            "convert --to T K.txt",
            "place --paper 1 --sections 12",
            "place --paper -1 --sections 12 --trains 3",
            "place --paper 1 --sections 12 --trains 3 K.txt",
            "key --all K.txt",
            "draw a b",
            "draw --frame x K.txt",
            "draw --filed --frame 1 K.txt",
            "draw --filed=1 K.txt",
            "explain --drawing 1:1,2 K.txt",
            "explain --drawing 1:1,2",
            "explain --drawing 1:1,a 2:3 K.txt",
            "explain --drawing 1:1 70000:3 K.txt",
            "explain --frames 3-1 K.txt",
            "explain --frames 0-5000 K.txt",
            "explain --setting 123 K.txt",
            "draw --filed --drawing 1:1 2:2 K.txt",
            "page --setting 12 K.txt K6.txt",
            "page --drawing 1:1 2:2 K.txt K6.txt",
            "page --frames K.txt K6.txt",
            "page --frames --what-if K.txt",
            "page --filed K.txt",
            "explain --old-desks --old-desks K.txt",
            "routes K.txt",
            "routes a b c",
            "check --ending",
            "help keys",
            "help key draw",
            "manual K.txt",
            "completions",
            "completions csh",
        ] {
            assert!(parsed(line).is_err(), "{line}");
        }
    }
}
