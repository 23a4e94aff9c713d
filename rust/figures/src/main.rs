//! The proved library beside Dogwood's Rust and the model of document 01, from one driver.

mod archive;
mod carried;
mod checking;
mod compare;
mod dots;
mod logs;
mod lookups;
mod reading;
mod shapes;
mod speed;
mod timing;
mod worst;
mod writing;
mod written;

use std::process::ExitCode;

const USAGE: &str = "usage: figures speed                        time a question, ours and the Rust's, on every shape
       figures check                        the check's throughput beside a plain pass
       figures compare N DAMAGED SEED [dots]   N questions and DAMAGED damaged files, put to all;
                                            `dots`: of cases with dots in their names alone
       figures carried N DAMAGED SEED       the same of request #106; `compare` asks a tenth as many, too
       figures write N DAMAGED SEED         the writer of request #101 beside the model; likewise
       figures json N SEED                  import and export of request #112 beside the model, on N logs and N/10 cases
       figures reading                      time the import beside a plain pass
       figures log SHAPE                    print a log that `reading` reads (0 to 5), to be read by others
       figures writing                      time the writer beside Rust's sort and dedup
       figures write-once SHAPE TIMES       one shape of it (0 to 7) so often, to be profiled
       figures once SHAPE TIMES ours|rust   ask one shape so often, to be profiled
       figures dots [K]                     time one lookup in files of shared names, in all or in file K
       figures lookups                      time a name's lookup in records of 4 to 16,384 members
       figures worst [OF]                   the worst files known: the check, a lookup, a comparison, a term, a row
                                            pass, a step; all or those of one, or one by its name
       figures lookup MEMBERS first|last|miss TIMES ours|rust   one of them so often, to be profiled";

fn main() -> ExitCode {
    let arguments: Vec<String> = std::env::args().skip(1).collect();
    let arguments: Vec<&str> = arguments.iter().map(String::as_str).collect();
    let number = |text: &str| text.parse::<u64>().map_err(|_| format!("`{text}` is no number"));
    let done = match arguments[..] {
        ["speed"] => speed::print_tables(),
        ["check"] => checking::print_table(),
        ["compare", questions, copies, seed] => {
            number(questions).and_then(|n| compare::run(n, number(copies)?, number(seed)?, None))
        }
        ["compare", questions, copies, seed, mix] => {
            number(questions).and_then(|n| compare::run(n, number(copies)?, number(seed)?, Some(mix)))
        }
        ["carried", questions, copies, seed] => {
            number(questions).and_then(|n| compare::carried(n, number(copies)?, number(seed)?))
        }
        ["write", inputs, copies, seed] => {
            number(inputs).and_then(|n| compare::written(n, number(copies)?, number(seed)?))
        }
        ["json", logs, seed] => number(logs).and_then(|n| compare::logs(n, number(seed)?)),
        ["reading"] => reading::print_table(),
        ["log", shape] => number(shape).and_then(|k| reading::print_log(k as usize)),
        ["writing"] => writing::print_table(),
        ["write-once", shape, times] => number(shape).and_then(|k| writing::once(k as usize, number(times)?)),
        ["once", shape, times, who] => number(times).and_then(|n| speed::once(shape, n, who == "rust")),
        ["lookups"] => lookups::print_table(),
        ["dots"] => dots::print_table(None),
        ["dots", file] => number(file).and_then(|file| dots::print_table(Some(file as usize))),
        ["worst"] => worst::print_table(None),
        ["worst", wanted] => worst::print_table(Some(wanted)),
        // what `worst` starts for each file
        ["worst-one", file, bytes] => number(file).and_then(|k| worst::print_one(k as usize, number(bytes)? as usize)),
        ["lookup", members, name, times, who] => {
            number(members).and_then(|m| lookups::once(m as usize, name, number(times)?, who == "rust"))
        }
        _ => Err(USAGE.to_string()),
    };
    match done {
        Ok(true) => ExitCode::SUCCESS,
        Ok(false) => ExitCode::FAILURE,
        Err(message) => {
            eprintln!("{message}");
            ExitCode::from(2)
        }
    }
}
