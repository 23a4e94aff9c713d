//! `man`: the manual page, made from the commands' own table.

use crate::arguments::Options;
use crate::failure::Failure;
use crate::help::{FILES, FIRST, STATUS};
use crate::output::print_or_write;
use crate::spec::COMMANDS;
use crate::Said;

pub fn man(options: &Options) -> Result<Said, Failure> {
    if !options.files.is_empty() {
        return Err(Failure::usage("`man` takes no file; -o names the one to write"));
    }
    print_or_write(&page(), options.named_file("-o"), &[])?;
    Ok(Said::Yes)
}

fn page() -> String {
    let mut page = format!(".TH GALIVODERN 1 \"\" \"galivodern {}\"\n", env!("CARGO_PKG_VERSION"));
    page.push_str(".SH NAME\ngalivodern \\- ask rules over a board's log\n.SH SYNOPSIS\n");
    for command in &COMMANDS {
        page.push_str(&format!(".B galivodern {}\n{} [options]\n.br\n", command.name, plain(command.files)));
    }
    page.push_str(&format!(".SH DESCRIPTION\n{}\n.PP\n{}\n.SH COMMANDS\n", plain(FIRST), plain(FILES)));
    for command in &COMMANDS {
        page.push_str(&format!(".SS galivodern {} {}\n{}\n", command.name, plain(command.files), plain(command.about)));
        for option in command.options {
            let value = if option.value.is_empty() { String::new() } else { format!(" {}", plain(option.value)) };
            page.push_str(&format!(".TP\n.B {}{value}\n{}\n", plain(option.name), plain(option.about)));
        }
    }
    page.push_str(&format!(".SH EXIT STATUS\n{}\n", plain(STATUS)));
    page.push_str(".SH FILES\n.TP\n.I CASE.names\nthe names of a packed case, written by\n.B pack\n");
    page
}

/// Text that is no roff: hyphens stay, and nothing begins a request.
fn plain(text: &str) -> String {
    let text = text.replace('\\', "\\e").replace('-', "\\-");
    if text.starts_with(['.', '\'']) {
        format!("\\&{text}")
    } else {
        text
    }
}
