//! The command `galivodern`: checks cases and asks them.

mod arguments;
mod ask;
mod bench;
mod bind;
mod completions;
mod convert;
mod excerpt;
mod failure;
mod help;
mod input;
mod json;
mod logs;
mod man;
mod names;
mod opened;
mod output;
mod progress;
mod rows;
mod sha256;
mod show;
mod spec;
mod warn;
mod why;

use std::ffi::OsString;
use std::process::ExitCode;

use arguments::Options;
use casefile::near::did_you_mean;
use failure::Failure;

/// What a command that went well says by its exit status.
pub enum Said {
    Yes,
    No,
}

fn main() -> ExitCode {
    let arguments: Vec<OsString> = std::env::args_os().skip(1).collect();
    match run(&arguments) {
        Ok(Said::Yes) => ExitCode::SUCCESS,
        Ok(Said::No) => ExitCode::from(1),
        Err(failure) => {
            let options = arguments.iter().take_while(|argument| *argument != "--");
            failure.report(options.into_iter().any(|argument| argument == "--json"));
            ExitCode::from(2)
        }
    }
}

fn run(arguments: &[OsString]) -> Result<Said, Failure> {
    let Some((command, rest)) = arguments.split_first() else {
        return Err(Failure::usage("no command is given"));
    };
    let command = command.to_string_lossy();
    if rest.iter().take_while(|argument| *argument != "--").any(|argument| argument == "--help" || argument == "-h") {
        return help::print(Some(&command));
    }
    match command.as_ref() {
        "help" | "--help" | "-h" => return help::print(rest.first().and_then(|name| name.to_str())),
        "--version" | "-V" => {
            output::print(&format!("galivodern {}\n", env!("CARGO_PKG_VERSION")))?;
            return Ok(Said::Yes);
        }
        _ => {}
    }
    let spec = spec::command(&command).ok_or_else(|| no_command(&command))?;
    let options = Options::parse(spec, rest)?;
    match spec.name {
        "check" => convert::check(&options),
        "ask" => ask::ask(&options),
        "why" => why::why(&options),
        "rows" => rows::rows(&options),
        "bench" => bench::bench(&options),
        "pack" => convert::pack_text(&options),
        "text" => convert::text(&options),
        "import" => logs::import(&options),
        "export" => logs::export(&options),
        "completions" => completions::completions(&options),
        _ => man::man(&options),
    }
}

fn no_command(name: &str) -> Failure {
    let near = did_you_mean(name, spec::COMMANDS.iter().map(|command| command.name));
    Failure::usage(format!("there is no command `{name}`{near}"))
}
