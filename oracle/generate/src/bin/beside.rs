//! `beside PROGRAM N SEED` puts the program `bench` beside the model: N case files, valid, damaged,
//! too long, with a condition, an aggregate, a term or nothing as their last node, or with walks
//! that reach refusals 11 and 12.
//! Every second file goes in by its name, the others by standard input. Prints counts by what the
//! model writes, and each file on which the program writes something else.

use std::collections::BTreeMap;
use std::io::Write;
use std::path::{Path, PathBuf};
use std::process::{Command, ExitCode, Stdio};

use casefile::{Builder, Node, Point, Run, Tables, Within};
use generate::cases::random_case;
use generate::damage::damaged;
use generate::{Profile, Random};
use model::{Model, Question};

const MOST_BYTES: usize = 65_536;
const STEPS: u64 = 1_000_000;
const ROOM: u64 = 256;

fn main() -> ExitCode {
    let arguments: Vec<String> = std::env::args().collect();
    let number = |k: usize| arguments.get(k).and_then(|text| text.parse::<u64>().ok());
    let (Some(program), Some(count), Some(seed)) = (arguments.get(1), number(2), number(3)) else {
        eprintln!("usage: beside PROGRAM N SEED");
        return ExitCode::from(2);
    };
    match beside(Path::new(program), count, seed) {
        Ok(0) => ExitCode::SUCCESS,
        Ok(_) => ExitCode::FAILURE,
        Err(error) => {
            eprintln!("{error}");
            ExitCode::from(2)
        }
    }
}

fn beside(program: &Path, count: u64, seed: u64) -> std::io::Result<u64> {
    let mut random = Random::new(seed);
    let place = std::env::temp_dir().join(format!("beside-{}.case", std::process::id()));
    let (mut counts, mut differ) = (BTreeMap::new(), 0);
    for k in 0..count {
        let (kind, file) = random_file(&mut random);
        let expected = table(&file);
        let written = if k % 2 == 0 { by_name(program, &place, &file)? } else { by_input(program, &file)? };
        *counts.entry(format!("{kind}: {}", says(&expected))).or_insert(0u64) += 1;
        if written != expected.as_bytes() {
            differ += 1;
            println!(
                "DIFFERENCE at file {k}, {kind}\nmodel:\n{expected}program:\n{}",
                String::from_utf8_lossy(&written)
            );
        }
    }
    let _ = std::fs::remove_file(&place);
    for (kind, files) in counts {
        println!("{files:>7}  {kind}");
    }
    println!("seed {seed}: {count} files, {differ} differ");
    Ok(differ)
}

// ---- the two sides

fn by_name(program: &Path, place: &PathBuf, file: &[u8]) -> std::io::Result<Vec<u8>> {
    std::fs::write(place, file)?;
    Ok(Command::new(program).arg(place).stdin(Stdio::null()).output()?.stdout)
}

fn by_input(program: &Path, file: &[u8]) -> std::io::Result<Vec<u8>> {
    let mut child = Command::new(program).stdin(Stdio::piped()).stdout(Stdio::piped()).spawn()?;
    let mut input = child.stdin.take().expect("a pipe was asked for");
    let file = file.to_vec();
    // the program may stop reading early, so a broken pipe is no error here
    let writing = std::thread::spawn(move || drop(input.write_all(&file)));
    let output = child.wait_with_output()?;
    writing.join().expect("the writer does not panic");
    Ok(output.stdout)
}

/// What document 01's program writes, by the model.
fn table(file: &[u8]) -> String {
    let model = Model::document();
    if file.len() > MOST_BYTES {
        return "refused 2\n".to_string();
    }
    let refusal = model.check(file);
    if refusal != 0 {
        return format!("refused {refusal}\n");
    }
    let tables = Tables::decode(file).expect("the file passed the check");
    let last = tables.nodes.last().and_then(|&words| Node::read(words));
    if !last.is_some_and(|node| node.is_condition() || node.is_aggregate()) {
        return "refused 8\n".to_string();
    }
    let start = vec![0; 2 * tables.variables as usize];
    let mut text = "point verdict steps held\n".to_string();
    for point in 0..tables.points.len() as u32 {
        let node = tables.nodes.len() as u32 - 1;
        let question = Question { case: file, point, node, start: &start, limit: STEPS, room: ROOM };
        let mut workspace = vec![0; start.len() * ROOM as usize];
        let said = model.ask(&question, &mut workspace);
        let verdict = match (said.refusal, said.answer) {
            (0, bits) if said.number => (bits as i64).to_string(),
            (0, 1) => "yes".to_string(),
            (0, _) => "no".to_string(),
            (refusal, _) => format!("refused {refusal}"),
        };
        text += &format!("{point} {verdict} {} {}\n", said.steps, said.rows);
    }
    text
}

/// A table's kind, for counting.
fn says(table: &str) -> String {
    if table.starts_with("refused") {
        return table.trim_end().to_string();
    }
    let reached = |number: &str| table.lines().any(|line| line.contains(number));
    let mut kind = "a table".to_string();
    for number in ["refused 11", "refused 12"] {
        if reached(number) {
            kind += &format!(", {number} in it");
        }
    }
    kind
}

// ---- files

fn random_file(random: &mut Random) -> (&'static str, Vec<u8>) {
    let profile = if random.percent(70) { Profile::USUAL } else { Profile::SMALL };
    let mut tables = random_case(random, profile).tables;
    match random.below(1000) {
        0..=249 => ("random", up_to_last(tables, Node::is_condition).encode()),
        250..=389 => ("aggregate last", up_to_last(tables, Node::is_aggregate).encode()),
        390..=399 => ("extreme sum last", extreme_sum(random).encode()),
        400..=599 => ("as made", tables.encode()),
        600..=889 => {
            let whole = up_to_last(tables, Node::is_condition).encode();
            ("damaged", damaged(random, &whole))
        }
        890..=919 => {
            let mut long = tables.encode();
            long.resize(MOST_BYTES + random.between(0, 3), 0);
            ("padded to the most bytes and above", long)
        }
        920..=959 => {
            tables.nodes.truncate(random.below(3));
            ("few nodes", tables.encode())
        }
        960..=984 => {
            tables.points.clear();
            ("no points", up_to_last(tables, Node::is_condition).encode())
        }
        985..=989 => ("nested scans", nested_scans(random).encode()),
        _ => ("many rows", many_rows(random).encode()),
    }
}

/// The case up to its last node of a sort.
fn up_to_last(mut tables: Tables, sort: fn(Node) -> bool) -> Tables {
    let is_of = |words: &[u32; 8]| Node::read(*words).is_some_and(sort);
    let end = tables.nodes.iter().rposition(is_of).map_or(0, |last| last + 1);
    tables.nodes.truncate(end);
    tables
}

/// A point for each logged `n`, and a Predicate on `n`.
fn numbered(logged: impl IntoIterator<Item = i64>, term: impl Fn(&mut Builder) -> u32) -> (Builder, u32) {
    let mut builder = Builder::new(1);
    let context = builder.object(&[]);
    let (action, kind) = (builder.string("Flash"), builder.string("request"));
    let none = Run { first: 0, count: 0 };
    for (k, n) in logged.into_iter().enumerate() {
        let n = builder.int(n);
        let logged = builder.object(&[("n", n)]);
        let time = k as i64;
        let point = Point {
            time,
            namespace: none,
            action,
            kind,
            logged,
            context,
            principal: None,
            resource: None,
            entities: none,
        };
        builder.point(point);
    }
    let path = builder.names(&["n"]);
    let term = term(&mut builder);
    let arguments = builder.arguments(&[(path, term)]);
    let namespace = Run { first: 0, count: 0 };
    let predicate = builder.node(Node::Predicate { namespace, action, kind, arguments });
    (builder, predicate)
}

/// The points' own numbers, now and then 0.
fn mostly_rising(random: &mut Random, points: usize) -> Vec<i64> {
    (0..points as i64).map(|k| if random.percent(90) { k } else { 0 }).collect()
}

const DAY: Within = Within { amount: 1, unit: 3 };

/// Scans in scans that find nothing: steps grow with a power of the points.
fn nested_scans(random: &mut Random) -> Tables {
    let points = random.between(10, 17);
    let (mut builder, mut body) = numbered(mostly_rising(random, points), |builder| {
        let never = builder.int(-1);
        builder.node(Node::Literal { value: never })
    });
    for _ in 0..random.between(8, 10) {
        body = builder.node(Node::Formerly { within: DAY, body });
    }
    builder.finish()
}

/// Rows for each point before.
fn many_rows(random: &mut Random) -> Tables {
    let points = random.between(200, 300);
    let variable = |builder: &mut Builder| builder.node(Node::Variable { variable: 0 });
    let (mut builder, predicate) = numbered(mostly_rising(random, points), variable);
    let body = builder.node(Node::Formerly { within: DAY, body: predicate });
    builder.node(Node::Exists { variable: 0, body });
    builder.finish()
}

/// A sum that reaches the ends of 64 bits, both ways.
fn extreme_sum(random: &mut Random) -> Tables {
    let ends = [i64::MIN, i64::MIN + 1, -1, 0, 1, i64::MAX - 1, i64::MAX];
    let logged: Vec<i64> = (0..random.between(1, 6)).map(|_| random.pick(&ends)).collect();
    let variable = |builder: &mut Builder| builder.node(Node::Variable { variable: 0 });
    let (mut builder, predicate) = numbered(logged, variable);
    let body = builder.node(Node::Formerly { within: DAY, body: predicate });
    let binders = builder.binders(&[0]);
    builder.node(Node::Sum { variable: 0, binders, body });
    builder.finish()
}
