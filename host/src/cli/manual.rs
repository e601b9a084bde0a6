//! The manual page and the completion for bash, from the same tables as help.
use super::command::Command;
use super::help::{PRINTED, STATUS};
use super::options::{all, choices};
use super::shelf::Task;

/// The manual page, for man.
pub fn page() -> String {
    let mut page = format!(".TH HERRINGNET 1 \"\" \"herringnet {}\"\n", env!("CARGO_PKG_VERSION"));
    page += ".SH NAME\nherringnet \\- check, list, show and rewrite Windows shortcuts\n.SH SYNOPSIS\n";
    for command in Command::ALL {
        for call in command.calls() {
            page += &format!(".B herringnet\n{}\n.br\n", escaped(&call));
        }
    }
    page += ".SH DESCRIPTION\nThe answers are those of a proved library, for every file, refused ones too.\n";
    page += "Without FILE, or where FILE is \\-, standard input is read; diff needs two FILEs, and audit reads files alone.\n";
    page += "After \\-\\- every word is a FILE.\n";
    page +=
        ".B herringnet \\-\\-version\nsays the version, the archive that it was built from and the requests in it.\n";
    for command in Command::ALL {
        page += &format!(".SS {}\n{}", command.word(), as_it_stands(command.text()));
    }
    page += ".SH OPTIONS\n";
    for choice in all() {
        let takers = Command::ALL.iter().filter(|command| choice.commands.has(**command));
        let commands: Vec<&str> = takers.map(|command| command.word()).collect();
        let lines = escaped(&choice.lines.join("\n"));
        page += &format!(".TP\n.B {}\n{}\n({})\n", escaped(&choice.heading()), lines, commands.join(", "));
    }
    page += &format!(".SH EXIT STATUS\n{}.SH OUTPUT\n{}", as_it_stands(STATUS), as_it_stands(PRINTED));
    page
}

/// Lines that keep their breaks.
fn as_it_stands(text: &str) -> String {
    format!(".nf\n{}.fi\n", escaped(text))
}

/// Text in which man sees no command of its own.
fn escaped(text: &str) -> String {
    let text = text.replace('\\', "\\e").replace('-', "\\-");
    let lines = text.split('\n').map(|line| match line.starts_with(['.', '\'']) {
        true => format!("\\&{}", line),
        false => line.to_string(),
    });
    lines.collect::<Vec<String>>().join("\n")
}

/// The completion for bash: commands first, after `shelf` what it is to do, then the options of the command, and names of
/// files everywhere.
pub fn completion() -> String {
    let commands = Command::ALL.map(Command::word).join(" ");
    let tasks = Task::WORDS.map(|row| row.0).join(" ");
    let cases: String = Command::ALL
        .map(|command| {
            let words: Vec<&str> = choices(command).flat_map(|choice| choice.words.iter().copied()).collect();
            format!("    {}) words='{}' ;;\n", command.word(), words.join(" "))
        })
        .concat();
    format!(
        "\
# Completion of herringnet's words in bash.
_herringnet() {{
    local words='' current=${{COMP_WORDS[COMP_CWORD]}}
    COMPREPLY=()
    if [ \"$COMP_CWORD\" -eq 1 ]; then
        COMPREPLY=($(compgen -W '{commands} help --help --version' -- \"$current\"))
        return
    fi
    case ${{COMP_WORDS[1]}} in
    help) COMPREPLY=($(compgen -W '{commands} man bash' -- \"$current\")); return ;;
{cases}    esac
    case $COMP_CWORD${{COMP_WORDS[1]}} in
    2shelf) COMPREPLY=($(compgen -W '{tasks} -h --help' -- \"$current\")); return ;;
    esac
    case $current in
    -*) COMPREPLY=($(compgen -W \"$words\" -- \"$current\")) ;;
    esac
}}
complete -o default -F _herringnet herringnet
",
        commands = commands,
        cases = cases,
        tasks = tasks
    )
}
