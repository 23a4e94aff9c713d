//! `check`, and between case files and their text: `pack` and `text`.

use casefile::text::unpack_named;
use galivodern::Contents;

use crate::arguments::Options;
use crate::failure::Failure;
use crate::input::{as_text, read, shown};
use crate::json::Object;
use crate::names::{beside, Names};
use crate::opened::{packed, Opened};
use crate::output::{print, print_bytes, print_or_write, write_file};
use crate::warn::warnings;
use crate::Said;

pub fn check(options: &Options) -> Result<Said, Failure> {
    let opened = Opened::of_call(options)?;
    let warned = warnings(options, &opened, None, Vec::new())?;
    let Contents { variables, strings, values, points, nodes, .. } = opened.case.contents();
    let bytes = opened.case.bytes().len();
    let file = opened.shown();
    if options.flag("--json") {
        let object = opened.json().plain("passes", true).plain("bytes", bytes);
        let object = object.plain("variables", variables).plain("strings", strings).plain("values", values);
        let object = object.plain("points", points).plain("nodes", nodes);
        let rules = opened.names.rules.iter().fold(Object::new(), |rules, rule| rules.plain(&rule.name, rule.node));
        let object = object.plain("rules", rules.done());
        print(&format!("{}\n", object.warnings(&warned).done()))?;
    } else if !options.flag("--quiet") {
        print(&format!(
            "{file}: a sound case of {bytes} bytes: {points} points, {nodes} nodes, {variables} variables, \
             {values} values, {strings} strings\n"
        ))?;
    }
    Ok(Said::Yes)
}

pub fn pack_text(options: &Options) -> Result<Said, Failure> {
    let [text, case] = &options.files[..] else {
        return Err(Failure::usage("`pack` takes a text and the case file to write"));
    };
    let bytes = read(text)?;
    let source = as_text(text, &bytes)?.ok_or_else(|| {
        Failure::of_file(&shown(text), "this is a case file already, or damaged: `pack` takes its text")
    })?;
    let packed = packed(text, source)?;
    let (encoded, names) = (packed.tables.encode(), Names::of_text(&packed));
    let opened = Opened::of(text, encoded.clone(), names.clone(), Some((source.to_string(), packed)))?;
    let warned = warnings(options, &opened, None, Vec::new())?;
    if case == "-" {
        return print_bytes(&encoded).map(|()| Said::Yes);
    }
    write_file(case, &encoded, &[text])?;
    write_file(&beside(case), names.written(&encoded).as_bytes(), &[text])?;
    if options.flag("--json") {
        let nodes = names.rules.iter().fold(Object::new(), |nodes, rule| nodes.plain(&rule.name, rule.node));
        let object =
            Object::new().text("file", &shown(case)).plain("bytes", encoded.len()).plain("nodes", nodes.done());
        print(&format!("{}\n", object.warnings(&warned).done()))?;
    } else if !options.flag("--quiet") {
        let lines: Vec<String> = names.rules.iter().map(|rule| format!("{} {}\n", rule.node, rule.name)).collect();
        print(&lines.concat())?;
    }
    Ok(Said::Yes)
}

/// The text of a case, with its names; a text is packed first, so it comes back in the form that `text` writes.
pub fn text(options: &Options) -> Result<Said, Failure> {
    let file = options.file()?;
    let opened = Opened::open(file)?;
    let text = unpack_named(&opened.tables, opened.names.given())
        .map_err(|message| Failure::of_file(&opened.file, message))?;
    if options.flag("--json") && options.named_file("-o").is_none() {
        print(&format!("{}\n", Object::new().text("file", &opened.file).text("text", &text).done()))?;
    } else {
        print_or_write(&text, options.named_file("-o"), &[file])?;
    }
    Ok(Said::Yes)
}
