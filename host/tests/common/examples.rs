//! The examples of a page: commands, each with what it prints.
use super::shortcuts::Shortcuts;
use super::text;
use std::process::Command;

/// The commands of a page, each with what it prints: lines that begin with a dollar sign, and those up to the next.
fn examples(page: &str) -> Vec<(String, String)> {
    let mut examples: Vec<(String, String)> = Vec::new();
    let mut is_printed = false;
    for line in page.lines() {
        match (line.strip_prefix("    $ "), line.strip_prefix("    ")) {
            (Some(command), _) => examples.push((command.to_string(), String::new())),
            (None, Some(printed)) if is_printed => examples.last_mut().unwrap().1 += &format!("{}\n", printed),
            _ => {}
        }
        is_printed = line.starts_with("    $ ") || is_printed && line.starts_with("    ");
    }
    examples
}

/// Runs the commands of a page in a folder, one after the other: each prints what the page shows.
pub fn prints(s: &Shortcuts, page: &str, at_least: usize) {
    let program = s.command(&[]);
    let parts = std::iter::once(program.get_program()).chain(program.get_args()).map(|word| word.to_str().unwrap());
    let function = format!("herringnet() {{ '{}' \"$@\"; }}", parts.collect::<Vec<&str>>().join("' '"));
    let examples = examples(page);
    assert!(examples.len() >= at_least, "{} examples", examples.len());
    for (line, printed) in examples {
        let script = format!("exec 2>&1; {}; {}", function, line);
        let said = Command::new("sh").arg("-c").arg(script).current_dir(&s.folder).output().unwrap();
        assert_eq!(text(&said.stdout), printed, "{}", line);
    }
}
