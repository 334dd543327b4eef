//! The page for man, made from the table of commands.

use crate::commands::{ABOUT, COMMANDS, COMMON, Command, CommandOption, PROGRAM, STATUSES, VERSION};

/// The page, in roff.
pub fn manual() -> String {
    let mut page = format!(".TH STATION 1 \"\" \"station judge {}\"\n", judge::VERSION);
    page += &format!(".SH NAME\nstation \\- {}\n", escaped(PROGRAM));
    page += ".SH SYNOPSIS\n.B station\n.I COMMAND\n.RI [ OPTIONS ]\n.RI [ FILE \" ..]\"\n.SH DESCRIPTION\n";
    paragraphs(&mut page, &ABOUT);
    page += &format!(".PP\nThe library that answers is proved, in logic {}.\n", env!("JUDGE_LOGIC"));
    page += ".SH COMMANDS\n";
    for command in COMMANDS {
        section(&mut page, command);
    }
    page += ".SH OPTIONS OF EVERY COMMAND\n";
    for option in COMMON {
        entry(&mut page, option);
    }
    page += ".SH OTHER OPTIONS\n";
    entry(&mut page, &VERSION);
    page += ".SH EXIT STATUS\n";
    for (status, meaning) in STATUSES {
        page += &format!(".TP\n{status}\n{}\n", line(meaning));
    }
    page + ".SH SEE ALSO\n.BR key (1),\n.BR to_s (1),\n.BR to_u (1),\n.BR standing (1)\n"
}

fn section(page: &mut String, command: &Command) {
    *page += &format!(".SS {}\n", escaped(&command.usage()));
    paragraphs(page, command.about);
    for option in command.options {
        entry(page, option);
    }
    for text in command.after {
        *page += &format!(".PP\n{}\n", line(text));
    }
    *page += &format!(".PP\n.RS\n.EX\n{}\n.EE\n.RE\n", line(command.example));
}

/// The paragraphs after a heading.
fn paragraphs(page: &mut String, texts: &[&str]) {
    *page += &texts.iter().map(|text| format!("{}\n", line(text))).collect::<Vec<_>>().join(".PP\n");
}

fn entry(page: &mut String, option: &CommandOption) {
    let short = option.short.map_or(String::new(), |short| format!("\\fB{}\\fR, ", escaped(short)));
    let values: String = option.values.iter().map(|value| format!(" \\fI{}\\fR", escaped(value))).collect();
    *page += &format!(".TP\n{short}\\fB{}\\fR{values}\n{}\n", escaped(option.name), line(option.about));
}

/// A line of text, which may begin with a point.
fn line(text: &str) -> String {
    let text = escaped(text);
    if text.starts_with(['.', '\'']) { format!("\\&{text}") } else { text }
}

/// Text with the characters written out that mean something else in roff.
fn escaped(text: &str) -> String {
    text.replace('\\', "\\e").replace('-', "\\-").replace('~', "\\(ti").replace('^', "\\(ha")
}
