//! The table of commands: what each of them takes and does. The command line is read by it, and help, manual and completions are made from it.

use crate::doc::wrapped;
use crate::{DONE, NOT_RIGHT, REFUSED, WRONG_USE};

/// A command of the program.
pub struct Command {
    pub name: &'static str,
    /// What stands after the options.
    pub operands: &'static str,
    pub completed: Completed,
    /// What it gives, in a few words.
    pub gives: &'static str,
    /// What it does, by paragraph.
    pub about: &'static [&'static str],
    pub options: &'static [CommandOption],
    /// What there is to say after the options, by paragraph.
    pub after: &'static [&'static str],
    pub example: &'static str,
}

/// An option of a command.
pub struct CommandOption {
    /// Its name, with the dashes.
    pub name: &'static str,
    /// Its name of one letter.
    pub short: Option<&'static str>,
    /// What each of its values is.
    pub values: &'static [&'static str],
    pub completed: Completed,
    pub about: &'static str,
}

/// What a shell offers in a place of the command line.
#[derive(Clone, Copy, Debug, PartialEq, Eq)]
pub enum Completed {
    Nothing,
    Files,
    Commands,
    /// One of these words.
    Words(&'static [&'static str]),
}

impl Completed {
    /// The words that are offered.
    pub fn words(self) -> Vec<&'static str> {
        match self {
            Completed::Nothing | Completed::Files => vec![],
            Completed::Commands => COMMANDS.iter().map(|command| command.name).collect(),
            Completed::Words(words) => words.to_vec(),
        }
    }
}

const fn flag(name: &'static str, about: &'static str) -> CommandOption {
    CommandOption { name, short: None, values: &[], completed: Completed::Nothing, about }
}

const fn valued(name: &'static str, values: &'static [&'static str], about: &'static str) -> CommandOption {
    CommandOption { name, short: None, values, completed: Completed::Nothing, about }
}

/// What the program is.
pub const PROGRAM: &str = "what the station judge says of a file, in words and in a picture";

/// What holds of every command, by paragraph.
pub const ABOUT: [&str; 2] = [
    "A file of the name - is the standard input. The answer goes to the standard output, errors to the standard error.",
    "Every answer is the library's; this program decides nothing.",
];

/// How the program ends, with what each status means.
pub const STATUSES: [(u8, &str); 4] = [
    (DONE, "all is well"),
    (REFUSED, "a file was refused"),
    (WRONG_USE, "wrong use, or a file that cannot be read, or an answer that cannot be written"),
    (NOT_RIGHT, "a drawing is not right"),
];

const JSON: CommandOption = flag("--json", "gives the answer as JSON, for programs: an object for each file, on a line each");
const LINES: CommandOption =
    flag("--lines", "gives the lines of 22 bytes as the library makes them, for programs; of a refusal the R line");
const SETTING: CommandOption = valued(
    "--setting",
    &["STATES"],
    "judges a setting of the open elements: a digit for each, 1 or 2, in the order of the file, as in --setting 1112",
);

const DRAWING: CommandOption = valued("--drawing", &["T:LIST", "U:LIST"], "");

pub const HELP: CommandOption = CommandOption { short: Some("-h"), ..flag("--help", "says what a command does") };
pub const VERSION: CommandOption = flag("--version", "says which version it is, and the logic that its library is proved in");

pub const OUTPUT: CommandOption = CommandOption {
    short: Some("-o"),
    completed: Completed::Files,
    ..valued("--output", &["FILE"], "writes the answer to FILE, in place of the standard output; what FILE held is lost")
};
pub const QUIET: CommandOption =
    CommandOption { short: Some("-q"), ..flag("--quiet", "tells nothing beside the answer but what is wrong: no progress, no counts") };

/// The options of every command.
pub const COMMON: &[CommandOption] = &[OUTPUT, QUIET, HELP];

pub const COMMANDS: &[Command] = &[
    Command {
        name: "key",
        operands: "FILE..",
        completed: Completed::Files,
        gives: "the key, as the key program prints it",
        about: &[
            "Prints the key of each file, byte for byte as the key program does: a V line for a verdict with its A and B lines, a Q line for \
            a settings question with its E lines, an R line for a refusal.",
        ],
        options: &[
            flag("--names", "puts the name of each file above its key, as ==> K.txt <==; more than one file asks for it"),
            flag(
                "--counts",
                "says of each key, on the standard error, how many subtractions of powers of ten its digits took: the sum of all digits in it",
            ),
        ],
        after: &[],
        example: "station key K.txt > K.key",
    },
    Command {
        name: "explain",
        operands: "FILE..",
        completed: Completed::Files,
        gives: "the answer in plain words",
        about: &[
            "Says in plain words what the key of each file says. A refusal: its number and meaning, the line, and a mark under the field \
            that causes it. A verdict: the trains, both paths step by step with the line and state that permits each step, where they meet, \
            entries and looks. A settings question: how many settings are safe, and the one shown.",
        ],
        options: &[
            CommandOption {
                about: "marks two drawn paths, of trains T and U. A list is section numbers with commas, as in --drawing 1:1,2,3,5 2:4,5. With \
                --setting it is marked under that setting",
                ..DRAWING
            },
            flag(
                "--can-be-safe",
                "says whether any setting at all is safe, yes or no, and a safe one of the turnouts. Of a file with 13 or more open elements this \
                is said without being asked for",
            ),
            valued("--frames", &["all|N|N-M"], "shows frames of the walk through all settings, counted from 0, and which of them are safe"),
            SETTING,
            flag(
                "--what-if",
                "says of every element, fixed ones too, what comes of its other state alone: from the setting shown, from that of --setting, or \
                from the file as it is",
            ),
            flag("--old-desks", "says whether a desk that reads only S files can have it"),
            JSON,
        ],
        after: &[],
        example: "station explain K.txt",
    },
    Command {
        name: "draw",
        operands: "FILE",
        completed: Completed::Files,
        gives: "a picture of the station (SVG)",
        about: &[
            "Prints a picture of the station as SVG, which any browser shows. Where elements are open, the picture has them as the setting \
            shown has them, with a dashed ring.",
        ],
        options: &[
            flag("--filed", "leaves open elements open"),
            CommandOption { about: "shows a setting of the open elements: a digit for each, 1 or 2, in the order of the file", ..SETTING },
            valued("--frame", &["N"], "shows frame N of the walk through all settings"),
            CommandOption {
                about: "shows two drawn paths as they are marked, with a cross at what is not permitted; under --setting or --frame where elements \
                are open",
                ..DRAWING
            },
            flag(
                "--what-if",
                "marks the elements that keep the station safe: in its other state each of them alone would let two trains meet",
            ),
        ],
        after: &[
            "Where a file of the same name with the ending .positions stands beside the station (K.positions beside K.txt), the sections \
            are put where it says: a line for each section, with its number, x and y, in any unit, x to the right and y downwards.",
        ],
        example: "station draw K.txt > K.svg",
    },
    Command {
        name: "page",
        operands: "FILE..",
        completed: Completed::Files,
        gives: "a page with picture, words and key of each file (HTML)",
        about: &[
            "Prints one page (HTML) with picture, words and key of each file. It holds all it needs, runs no script, and prints on paper, \
            each file on a sheet of its own. Pictures go by K.positions beside K.txt, as those of station draw do.",
            "With --setting or --drawing it is the sheet of an appeal: the candidate's setting and paths beside the judge's, marked under that setting. \
            With --frames it steps through all settings, one element at a time, by buttons or by itself, and prints as a sheet of small pictures, 64 at \
            a time, or 16 of a station with more than 128 sections; this page alone has a script.",
        ],
        options: &[
            CommandOption {
                about: "the candidate's setting of the open elements, of one FILE: a digit for each, 1 or 2, in the order of the file",
                ..SETTING
            },
            CommandOption { about: "the candidate's two paths, of one FILE, as in --drawing 1:1,2,3,5 2:4,5", ..DRAWING },
            flag("--what-if", "says and marks which elements keep the station safe"),
            flag("--frames", "a page that steps through all settings of one FILE"),
        ],
        after: &[],
        example: "station page stations/*.txt > page.html",
    },
    Command {
        name: "check",
        operands: "FOLDER..",
        completed: Completed::Files,
        gives: "every file of a folder, counted by its answer, or on a line each",
        about: &[
            "Judges every file of a folder, on all cores, and counts the answers. Folders inside the folder are left out, and so is what is no \
            regular file, as a pipe. In place of a folder may stand a file, or - for the names that the standard input has, one a line. On a \
            terminal it shows how far it is.",
            "With --csv or --json it writes the register in place of the counts: name, accepted or refused with number and line, verdict, trains, \
            meeting section, entries, looks, safe settings, proceed count, and the states of the open elements in the setting chosen.",
        ],
        options: &[
            valued(
                "--ending",
                &["TEXT"],
                "only files whose name ends so, as in --ending .txt; a file that is given itself is judged all the same",
            ),
            flag("--all", "names every refused file, and every one that cannot be read, and not only the first ones"),
            flag("--csv", "writes a row for each file, for spreadsheets (RFC 4180), under a heading"),
            flag("--no-heading", "leaves the heading out, for registers that are put together"),
            flag("--json", "writes an object for each file, on a line each"),
            CommandOption {
                short: Some("-0"),
                ..flag("--null", "names on the standard input are ended by a zero byte, as find -print0 does")
            },
        ],
        after: &[
            "Names may come from find, so that many files are shared among processes: find sitting-3 -type f -print0 | station check -0 --csv -",
        ],
        example: "station check --csv sitting-3 > register.csv",
    },
    Command {
        name: "routes",
        operands: "STATION ROUTES",
        completed: Completed::Files,
        gives: "which routes of a route file conflict",
        about: &["Prints which routes of a route file conflict in the station, as a table."],
        options: &[flag("--why", "says of each two routes that conflict why they do"), JSON],
        after: &[],
        example: "station routes K.txt K.routes",
    },
    Command {
        name: "answers",
        operands: "LOG",
        completed: Completed::Files,
        gives: "the standing answers of a log",
        about: &["Prints the standing answers of a log of C lines, by candidate, then question."],
        options: &[LINES, JSON],
        after: &[],
        example: "station answers sitting-3.log",
    },
    Command {
        name: "report",
        operands: "MARKS",
        completed: Completed::Files,
        gives: "the marks by candidate",
        about: &["Prints marks gained and possible by candidate, and of the session."],
        options: &[LINES, JSON],
        after: &[
            "The list of marks is text, a line for each mark with four numbers: candidate, question, gained, possible. Spaces, tabs, commas or \
            semicolons stand between them. Empty lines, and lines that begin with #, are left out.",
            "A table that a spreadsheet saved as CSV may have a first line with the names of its columns. Where candidate, question, gained and \
            possible are among them, in any order, the other columns are left out; where none of them is, there are four columns, in this order. Any \
            field may stand in quotes.",
        ],
        example: "station report sitting-3.csv",
    },
    Command {
        name: "convert",
        operands: "FILE",
        completed: Completed::Files,
        gives: "a station file with the letter S or U in front",
        about: &[
            "Prints a station file with another first letter, S for desks that read only S files, U for long trains, and no other byte changed; \
            of a refusal the R line. A train in more than one section is refused on the way to S, with 13.",
        ],
        options: &[CommandOption { completed: Completed::Words(&["S", "U"]), ..valued("--to", &["S|U"], "the letter that is wanted") }],
        after: &[],
        example: "station convert --to S U1.txt > S1.txt",
    },
    Command {
        name: "place",
        operands: "",
        completed: Completed::Nothing,
        gives: "trains placed in sections, drawn from a paper number",
        about: &[
            "Draws a section for each train from the number of a paper, all of them different: the same numbers always give the same sections.",
        ],
        options: &[
            valued("--paper", &["N"], "the number of the paper, 0 to 18446744073709551615"),
            valued("--sections", &["N"], "how many sections the station has, 1 to 512"),
            valued("--trains", &["N"], "how many trains are placed, at most 64 and no more than there are sections"),
            CommandOption { about: "gives the T lines for a station file; of a refusal the R line", ..LINES },
        ],
        after: &[],
        example: "station place --paper 2026 --sections 12 --trains 3",
    },
    Command {
        name: "help",
        operands: "[COMMAND]",
        completed: Completed::Commands,
        gives: "what a command does, as station COMMAND --help",
        about: &["Says what a command does; without one, which commands there are."],
        options: &[],
        after: &[],
        example: "station help draw",
    },
    Command {
        name: "manual",
        operands: "",
        completed: Completed::Nothing,
        gives: "this help as a page for man",
        about: &["Prints the page that man shows, in its language roff."],
        options: &[],
        after: &[],
        example: "station manual | man -l -",
    },
    Command {
        name: "completions",
        operands: "SHELL",
        completed: Completed::Words(&["bash", "zsh", "fish"]),
        gives: "what bash, zsh or fish needs to complete command lines",
        about: &["Prints the completions of station for a shell: bash, zsh or fish."],
        options: &[],
        after: &[],
        example: "station completions bash > ~/.local/share/bash-completion/completions/station",
    },
];

impl Command {
    /// The command of a name.
    pub fn named(name: &str) -> Option<&'static Command> {
        COMMANDS.iter().find(|command| command.name == name)
    }

    /// The option of a name, its own or one of every command.
    pub fn option(&self, name: &str) -> Option<&'static CommandOption> {
        self.all_options().find(|option| option.names().any(|other| other == name))
    }

    /// Its own options, then those of every command.
    pub fn all_options(&self) -> impl Iterator<Item = &'static CommandOption> {
        self.options.iter().chain(COMMON)
    }

    /// How it is called.
    pub fn usage(&self) -> String {
        let options = match self.options.len() {
            0 => "",
            1 => " [OPTION]",
            _ => " [OPTIONS]",
        };
        let space = if self.operands.is_empty() { "" } else { " " };
        format!("station {}{options}{space}{}", self.name, self.operands)
    }

    /// What its `--help` says.
    pub fn help(&self) -> String {
        let mut text = format!("usage: {}\n", self.usage());
        for paragraph in self.about {
            text += &format!("\n{}", wrapped(paragraph, WIDTH));
        }
        if !self.options.is_empty() {
            text.push('\n');
        }
        for option in self.options {
            text += &option.help();
        }
        for paragraph in self.after {
            text += &format!("\n{}", wrapped(paragraph, WIDTH));
        }
        text + &format!("\n  {}\n", self.example)
    }
}

impl CommandOption {
    /// The name of one letter, if it has one, and the long one.
    pub fn names(&self) -> impl Iterator<Item = &'static str> + use<> {
        self.short.into_iter().chain([self.name])
    }

    /// Its names with its values: `-o, --output FILE`.
    pub fn usage(&self) -> String {
        let mut words: Vec<&str> = vec![self.name];
        words.extend(self.values);
        let long = words.join(" ");
        match self.short {
            Some(short) => format!("{short}, {long}"),
            None => long,
        }
    }

    /// What it does, without what follows the first point or colon.
    pub fn in_short(&self) -> &'static str {
        let ends = [". ", ": ", "; "].iter().filter_map(|end| self.about.find(end));
        &self.about[..ends.min().unwrap_or(self.about.len())]
    }

    fn help(&self) -> String {
        entry(&self.usage(), self.about)
    }
}

/// The columns of a line of help.
const WIDTH: usize = 86;
/// The column at which the words about a thing begin.
const COLUMN: usize = 28;

/// A thing, and beside it what is said of it.
fn entry(thing: &str, about: &str) -> String {
    let mut text = format!("  {thing}");
    if text.len() + 2 > COLUMN {
        text.push('\n');
    }
    for line in wrapped(about, WIDTH - COLUMN).lines() {
        let start = if text.ends_with('\n') { 0 } else { text.len() };
        text += &format!("{}{line}\n", " ".repeat(COLUMN - start));
    }
    text
}

/// What `--help` says without a command.
pub fn overview() -> String {
    let mut text = format!("station - {PROGRAM}\n\nusage: station COMMAND [OPTIONS] FILE..\n\n");
    for command in COMMANDS {
        text += &entry(format!("{} {}", command.name, command.operands).trim_end(), command.gives);
    }
    text += "\nOptions of every command, and one that stands alone:\n\n";
    for option in COMMON.iter().chain([&VERSION]) {
        text += &option.help();
    }
    for paragraph in ABOUT {
        text += &format!("\n{}", wrapped(paragraph, WIDTH));
    }
    text += "\nThe status is\n\n";
    for (status, meaning) in STATUSES {
        text += &format!("  {status}  {meaning}\n");
    }
    text
}
