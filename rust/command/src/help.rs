//! What `galivodern help` prints.

use crate::failure::Failure;
use crate::output::print as write;
use crate::spec::{command, CommandSpec, COMMANDS};
use crate::Said;

/// Lines of help are no longer than this.
const WIDTH: usize = 88;
/// So much stands behind an indent in any case.
const LEAST: usize = 40;

pub const FIRST: &str = "galivodern asks rules over a board's log: was it reviewed, and is that so still?";

pub const FILES: &str = "FILE is a case file or the text of a case; - is standard input. The text is described in \
                         docs/CASE-TEXT.md. LOG is a JSON log, an event a line, described in docs/JSON-LOGS.md.";

pub const STATUS: &str = "Exit status: 0 for yes, 1 for no, 2 for a refusal, a fault or a wrong call. Refusals have a \
                          number and say what is wrong. No answer takes more steps or rows than allowed.";

const FIRST_CASE: &str = r#"A first case, asked:

    cat > my.case <<'END'
    variables b
    point 100 Review logged {board: "b1"}
    point 110 Flash  logged {board: "b1"}
    rule reviewed = exists b (Flash(board: b) and formerly within 1h Review(board: b))
    END
    galivodern ask my.case

Rules asked of a JSON log, at its last event:

    galivodern ask rules.case --log bench.jsonl --rule release_ok
"#;

pub fn print(name: Option<&str>) -> Result<Said, Failure> {
    let text = match name.map(|name| (name, command(name))) {
        Some((_, Some(command))) => of_command(command),
        Some((name, None)) if !["help", "--help", "-h"].contains(&name) => return Err(crate::no_command(name)),
        _ => overview(),
    };
    write(&text)?;
    Ok(Said::Yes)
}

fn overview() -> String {
    let mut text = format!("{FIRST}\n\n");
    for (k, command) in COMMANDS.iter().enumerate() {
        let before = if k == 0 { "usage:" } else { "      " };
        text.push_str(&format!("{before} galivodern {:<30}{}\n", call(command), command.brief));
    }
    text.push_str(&format!("       galivodern {:<30}tell more of a command\n\n", "help [COMMAND]"));
    format!("{text}{}\n{FIRST_CASE}\n{}", wrapped(FILES, ""), wrapped(STATUS, ""))
}

/// A command with its files, and that it has options.
fn call(command: &CommandSpec) -> String {
    let options = if command.options.is_empty() { "" } else { " [options]" };
    format!("{} {}{options}", command.name, command.files).replace("  ", " ")
}

fn of_command(command: &CommandSpec) -> String {
    let mut text = format!("usage: galivodern {}\n\n{}", call(command), wrapped(command.about, ""));
    if !command.options.is_empty() {
        text.push('\n');
    }
    for option in command.options {
        let name = format!("  {} {}", option.name, option.value);
        let about = wrapped(option.about, &" ".repeat(18));
        text.push_str(&format!("{name:<18}{}", &about[18..]));
    }
    text
}

/// A text in lines of at most `WIDTH` characters, each with its indent. What is not broken stays as it is: blanks may
/// stand in a quoted text.
pub fn wrapped(text: &str, indent: &str) -> String {
    let width = WIDTH.max(indent.len() + LEAST);
    let mut lines = vec![indent.to_string()];
    for word in text.split(' ') {
        let line = lines.last_mut().expect("there is one");
        let empty = line.len() == indent.len();
        if !empty && line.chars().count() + 1 + word.chars().count() > width {
            lines.push(format!("{indent}{word}"));
        } else {
            line.push_str(if empty { "" } else { " " });
            line.push_str(word);
        }
    }
    lines.join("\n") + "\n"
}
