//! One lookup in files made to take long: shared objects in which many chains of names join to one key,
//! and none leads to the path's end. A search that remembers nothing takes 3 to the power of 31 ways.

use std::hint::black_box;

use casefile::{Builder, Node, Point, Run, Tables};
use galivodern::{Answer, Bindings, Case, Limits, PointNo, RuleNo};

use crate::speed::shown;
use crate::timing::by_itself;

/// A file of 31 objects above each other, the most there can be: all names of an object lead to the one below
/// it, and each joins so many a's. The path has so many a's, and then a b.
struct Worst {
    parts: fn() -> Vec<usize>,
    path: usize,
    /// Made to run away: asked only where it is named by its number.
    runs_away: bool,
}

const LEVELS: usize = 31;

const fn file(parts: fn() -> Vec<usize>, path: usize) -> Worst {
    Worst { parts, path, runs_away: false }
}

/// More pairs of an object and a place in the path than any table has room for.
const fn running_away(parts: fn() -> Vec<usize>, path: usize) -> Worst {
    Worst { parts, path, runs_away: true }
}

const FILES: [Worst; 11] = [
    file(|| up_to(3), 60),
    file(|| up_to(3), 93),
    file(|| up_to(8), 200),
    file(|| up_to(20), 500),
    file(|| up_to(40), 1_000),
    file(|| vec![1, 4, 16, 64], LEVELS * 64),
    file(|| vec![1, 6, 36, 216], LEVELS * 216),
    file(|| vec![1, 20, 333], LEVELS * 333),
    running_away(|| up_to(100), 3_000),
    running_away(|| vec![1, 12, 144, 1_728], LEVELS * 1_728),
    running_away(|| vec![1, 8, 64, 512, 4_096], LEVELS * 4_096),
];

fn up_to(most: usize) -> Vec<usize> {
    (1..=most).collect()
}

impl Worst {
    /// The lengths of its names.
    fn told(&self) -> String {
        let parts = (self.parts)();
        if parts.len() > 5 || parts == up_to(parts.len()) {
            return format!("1 to {}", parts.len());
        }
        parts.iter().map(usize::to_string).collect::<Vec<_>>().join(", ")
    }

    /// The file, and the node that is asked: `context.a.a. .. .b == 1`.
    fn made(&self) -> (Tables, u32) {
        let mut builder = Builder::new(0);
        let names: Vec<String> = (self.parts)().into_iter().map(|many| vec!["a"; many].join(".")).collect();
        let one = builder.int(1);
        let mut object = one;
        for _ in 0..LEVELS {
            let members: Vec<(&str, u32)> = names.iter().map(|name| (name.as_str(), object)).collect();
            object = builder.object(&members);
        }
        let logged = builder.object(&[]);
        let (action, kind) = (builder.string("A"), builder.string("request"));
        builder.point(Point {
            time: 0,
            namespace: Run::default(),
            action,
            kind,
            logged,
            context: object,
            principal: None,
            resource: None,
            entities: Run::default(),
        });
        let path: Vec<&str> = [vec!["a"; self.path], vec!["b"]].concat();
        let path = builder.names(&path);
        let left = builder.node(Node::Context { path });
        let right = builder.node(Node::Literal { value: one });
        let node = builder.node(Node::Comparison { op: 4, left, right });
        (builder.finish(), node)
    }
}

/// The time of one question for each file that is made to end, or for the one of this number.
pub fn print_table(only: Option<usize>) -> Result<bool, String> {
    println!("| names of so many parts | path | bytes | one question |");
    println!("|---|---|---|---|");
    let wanted = |k: usize, file: &Worst| only.map_or(!file.runs_away, |only| only == k);
    for (_, file) in FILES.iter().enumerate().filter(|(k, file)| wanted(*k, file)) {
        let (tables, node) = file.made();
        let bytes = tables.encode();
        let (told, path, length) = (file.told(), file.path + 1, bytes.len());
        let case = Case::new(bytes).map_err(|refusal| format!("{told}: {refusal}"))?;
        let limits = Limits { steps: 1, room: 0 };
        let ask = || case.ask(PointNo(0), RuleNo(node), &Bindings::new(), limits);
        match ask() {
            Ok(answer) if answer.value == Answer::Verdict(false) => {}
            other => return Err(format!("{told}: {other:?}, not no")),
        }
        println!("| {told} | {path} | {length} | {} |", shown(by_itself(|| black_box(ask()))));
    }
    Ok(true)
}
