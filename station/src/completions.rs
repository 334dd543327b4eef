//! What shells need to complete command lines, made from the table of commands.

use crate::commands::{COMMANDS, Command, CommandOption, Completed, VERSION};

/// The script of a shell; none where there is none for it.
pub fn of_shell(shell: &str) -> Option<String> {
    match shell {
        "bash" => Some(bash()),
        "zsh" => Some(zsh()),
        "fish" => Some(fish()),
        _ => None,
    }
}

/// The first line of what the script of a shell says of itself.
fn comment(shell: &str) -> String {
    format!("# Completes the command lines of station in {shell}. `station completions {shell}` makes it.\n")
}

/// The options that stand in place of a command.
fn alone() -> impl Iterator<Item = &'static CommandOption> {
    [&VERSION, &crate::commands::HELP].into_iter()
}

fn bash() -> String {
    let names = |options: &mut dyn Iterator<Item = &'static CommandOption>| options.flat_map(CommandOption::names).collect::<Vec<_>>();
    let mut text = comment("bash");
    text +=
        "_station() {\n    local word=${COMP_WORDS[COMP_CWORD]} words='' files=''\n    case $COMP_CWORD,${COMP_WORDS[COMP_CWORD-1]} in\n";
    text += &format!("    1,*) words='{}' ;;\n", [Completed::Commands.words(), names(&mut alone())].concat().join(" "));
    let mut told: Vec<&str> = Vec::new();
    for option in COMMANDS.iter().flat_map(Command::all_options).filter(|option| !option.values.is_empty()) {
        if !told.contains(&option.name) {
            told.push(option.name);
            let before: Vec<String> = option.names().map(|name| format!("*,{name}")).collect();
            text += &format!("    {}) {} ;;\n", before.join(" | "), bash_words(option.completed));
        }
    }
    text += "    *)\n        case ${COMP_WORDS[1]},$word in\n";
    for command in COMMANDS {
        text += &format!("        {},-*) words='{}' ;;\n", command.name, names(&mut command.all_options()).join(" "));
        text += &format!("        {},*) {} ;;\n", command.name, bash_words(command.completed));
    }
    text += "        esac\n        ;;\n    esac\n    [ \"$files\" ] || compopt +o default\n";
    text + "    mapfile -t COMPREPLY < <(compgen -W \"$words\" -- \"$word\")\n}\ncomplete -o default -F _station station\n"
}

fn bash_words(completed: Completed) -> String {
    match completed {
        Completed::Files => String::from("files=1"),
        _ => format!("words='{}'", completed.words().join(" ")),
    }
}

fn zsh() -> String {
    let mut text = format!("#compdef station\n{}", comment("zsh"));
    text += "local -a commands=(\n";
    for command in COMMANDS {
        text += &format!("    {}\n", quoted(&format!("{}:{}", command.name, command.gives)));
    }
    text += ")\nif (( CURRENT == 2 )); then\n    _describe command commands\n    compadd --";
    for name in alone().flat_map(CommandOption::names) {
        text += &format!(" {name}");
    }
    text += "\n    return\nfi\nlocal command=$words[2]\nshift words\n(( CURRENT-- ))\ncase $command in\n";
    for command in COMMANDS {
        text += &format!("{})\n    _arguments", command.name);
        for option in command.all_options() {
            let values: String = option.values.iter().map(|value| zsh_place(value, option.completed)).collect();
            let about = format!("[{}]{values}", zsh_escaped(option.in_short()));
            match option.short {
                Some(short) => {
                    text += &format!(" \\\n        '({short} {})'{{{short},{}}}{}", option.name, option.name, quoted(&about));
                }
                // One value may be joined to the option.
                None => {
                    let joined = if option.values.len() == 1 { "=" } else { "" };
                    text += &format!(" \\\n        {}", quoted(&format!("{}{joined}{about}", option.name)));
                }
            }
        }
        if command.completed != Completed::Nothing {
            text += &format!(" \\\n        {}", quoted(&format!("*{}", zsh_place(command.operands, command.completed))));
        }
        text += "\n    ;;\n";
    }
    text + "esac\n"
}

/// A place of the command line, named, and what is offered there.
fn zsh_place(name: &str, completed: Completed) -> String {
    let offered = match completed {
        Completed::Nothing => String::from(" "),
        Completed::Files => String::from("_files"),
        _ => format!("({})", completed.words().join(" ")),
    };
    format!(":{}:{offered}", zsh_escaped(name))
}

fn zsh_escaped(text: &str) -> String {
    text.replace('\\', "\\\\").replace(':', "\\:").replace('[', "\\[").replace(']', "\\]")
}

/// A word in single quotes, for bash and zsh.
fn quoted(text: &str) -> String {
    format!("'{}'", text.replace('\'', "'\\''"))
}

fn fish() -> String {
    let mut text = comment("fish");
    text +=
        "function __station_is\n    set -l words (commandline -opc)\n    test (count $words) -gt 1; and test $words[2] = $argv[1]\nend\n";
    for command in COMMANDS {
        text += &format!("complete -c station -n __fish_use_subcommand -f -a {} -d {}\n", command.name, fish_quoted(command.gives));
    }
    for option in alone() {
        text += &format!("complete -c station -n __fish_use_subcommand -f{}\n", fish_option(option));
    }
    for command in COMMANDS {
        let lead = format!("complete -c station -n '__station_is {}'", command.name);
        match command.completed {
            Completed::Files => {}
            Completed::Nothing => text += &format!("{lead} -f\n"),
            _ => text += &format!("{lead} -f -a {}\n", fish_quoted(&command.completed.words().join(" "))),
        }
        for option in command.all_options() {
            let values = match (option.values.len(), option.completed) {
                (0, _) => String::new(),
                (_, Completed::Files) => String::from(" -r -F"),
                (_, completed) => format!(" -x -a {}", fish_quoted(&completed.words().join(" "))),
            };
            text += &format!("{lead}{values}{}\n", fish_option(option));
        }
    }
    text
}

fn fish_option(option: &CommandOption) -> String {
    let mut text = String::new();
    for name in option.names() {
        let letters = name.trim_start_matches('-');
        text += &format!(" -{} {letters}", if name.starts_with("--") { 'l' } else { 's' });
    }
    text + &format!(" -d {}", fish_quoted(option.in_short()))
}

fn fish_quoted(text: &str) -> String {
    format!("'{}'", text.replace('\\', "\\\\").replace('\'', "\\'"))
}
