//! `completions`: what bash, zsh and fish need, made from the commands' own table.

use crate::arguments::Options;
use crate::failure::Failure;
use crate::output::print_or_write;
use crate::spec::{CommandSpec, COMMANDS};
use crate::Said;

pub fn completions(options: &Options) -> Result<Said, Failure> {
    let shell = options.files.first().and_then(|shell| shell.to_str());
    let text = match (shell, options.files.len()) {
        (Some("bash"), 1) => bash(),
        (Some("zsh"), 1) => format!("#compdef galivodern\nautoload -U +X bashcompinit && bashcompinit\n{}", bash()),
        (Some("fish"), 1) => fish(),
        _ => return Err(Failure::usage("`completions` takes the name of a shell: bash, zsh or fish")),
    };
    print_or_write(&text, options.named_file("-o"), &[])?;
    Ok(Said::Yes)
}

fn names() -> String {
    COMMANDS.iter().map(|command| command.name).chain(["help"]).collect::<Vec<_>>().join(" ")
}

/// The options of a command, and those of them that take a value.
fn options(command: &CommandSpec, valued: bool) -> Vec<&'static str> {
    command.options.iter().filter(|option| !valued || !option.value.is_empty()).map(|option| option.name).collect()
}

fn bash() -> String {
    let mut text = String::from("_galivodern() {\n    local word=${COMP_WORDS[COMP_CWORD]} options=\n");
    text.push_str("    if [ \"$COMP_CWORD\" -eq 1 ]; then\n");
    text.push_str(&format!("        COMPREPLY=($(compgen -W \"{}\" -- \"$word\"))\n        return\n    fi\n", names()));
    text.push_str("    case ${COMP_WORDS[1]} in\n");
    for command in &COMMANDS {
        text.push_str(&format!("    {}) options=\"{} --help\" ;;\n", command.name, options(command, false).join(" ")));
    }
    text.push_str(&format!("    help) COMPREPLY=($(compgen -W \"{}\" -- \"$word\")); return ;;\n    esac\n", names()));
    text.push_str("    case $word in\n    -*) COMPREPLY=($(compgen -W \"$options\" -- \"$word\")) ;;\n");
    text.push_str("    *) COMPREPLY=($(compgen -f -- \"$word\")) ;;\n    esac\n}\n");
    text + "complete -o filenames -F _galivodern galivodern\n"
}

fn fish() -> String {
    let mut text = String::new();
    for command in &COMMANDS {
        let brief = command.brief.replace('\'', "\\'");
        text.push_str(&format!(
            "complete -c galivodern -n __fish_use_subcommand -f -a {} -d '{brief}'\n",
            command.name
        ));
        for option in command.options {
            let (flag, name) = match option.name.strip_prefix("--") {
                Some(name) => ("-l", name),
                None => ("-s", option.name.trim_start_matches('-')),
            };
            let value = if options(command, true).contains(&option.name) { " -r" } else { "" };
            let seen = format!("'__fish_seen_subcommand_from {}'", command.name);
            text.push_str(&format!("complete -c galivodern -n {seen} {flag} {name}{value}\n"));
        }
    }
    text
}
