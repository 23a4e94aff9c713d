//! Completions and the manual page, tried with the programs that read them.

mod common;

use std::process::Command;

use common::{file, refused, run};

/// What bash offers for the last of these words.
fn offered(words: &[&str]) -> Vec<String> {
    let completions = file("galivodern.bash", run(&["completions", "bash"]).1.as_bytes());
    let script = format!(
        "source {completions}; COMP_WORDS=({}); COMP_CWORD={}; _galivodern; printf '%s\\n' \"${{COMPREPLY[@]}}\"",
        words.join(" "),
        words.len() - 1
    );
    let output = Command::new("bash").args(["-c", &script]).output().expect("bash can be run");
    assert!(output.status.success(), "{}", String::from_utf8_lossy(&output.stderr));
    String::from_utf8_lossy(&output.stdout).lines().map(str::to_string).collect()
}

#[test]
fn bash_completes_commands_and_options() {
    assert_eq!(offered(&["galivodern", "ch"]), ["check"]);
    assert_eq!(offered(&["galivodern", "ask", "--st"]), ["--steps", "--strict"]);
    assert_eq!(offered(&["galivodern", "why", "--sv"]), ["--svg"]);
    assert_eq!(offered(&["galivodern", "help", "ro"]), ["rows"]);
    assert_eq!(offered(&["galivodern", "pack", "--ro"]), [""]);
}

/// Every option of every command is in its help, in the page and in the completions.
#[test]
fn all_options_are_everywhere() {
    let (page, bash, fish) = (run(&["man"]).1, run(&["completions", "bash"]).1, run(&["completions", "fish"]).1);
    assert!(run(&["completions", "zsh"]).1.starts_with("#compdef galivodern\n"));
    let mut count = 0;
    let commands = ["check", "ask", "why", "rows", "bench", "pack", "text", "import", "export", "completions", "man"];
    for command in commands {
        let help = run(&["help", command]).1;
        assert!(page.contains(&format!(".SS galivodern {command}")), "{command}");
        for line in help.lines().filter(|line| line.starts_with("  -")) {
            let option = line.split_whitespace().next().expect("the line has an option");
            assert!(page.contains(&format!(".B {}", option.replace('-', "\\-"))), "{option}");
            assert!(bash.lines().any(|line| line.starts_with(&format!("    {command})")) && line.contains(option)));
            let (flag, name) = option.strip_prefix("--").map_or(("-s", &option[1..]), |name| ("-l", name));
            let seen = format!("'__fish_seen_subcommand_from {command}' {flag} {name}");
            assert!(fish.lines().any(|line| line.contains(&seen)), "{seen}");
            count += 1;
        }
    }
    assert_eq!(count, 60);
    refused(&["completions", "tcsh"], "`completions` takes the name of a shell: bash, zsh or fish");
}

/// groff, where there is one, finds nothing to complain of.
#[test]
fn the_page_is_roff() {
    let page = file("galivodern.1", run(&["man"]).1.as_bytes());
    if let Ok(output) = Command::new("groff").args(["-man", "-Tutf8", "-ww", &page]).output() {
        assert_eq!(String::from_utf8_lossy(&output.stderr), "");
        assert!(output.status.success());
    }
    let page = std::fs::read_to_string(page).expect("it was written");
    assert!(page.starts_with(".TH GALIVODERN 1"), "{page}");
    for section in ["NAME", "SYNOPSIS", "DESCRIPTION", "COMMANDS", "EXIT STATUS", "FILES"] {
        assert!(page.contains(&format!(".SH {section}\n")), "{section}");
    }
}
