//! The worst files known, each made for a number of bytes: what grows in them faster than the file.

use casefile::records::Value;
use casefile::{Builder, Node, Point, Run, Tables};

/// A file, the node that is asked at its last point (none where the check itself is timed), and the room lent.
pub struct Made {
    pub tables: Tables,
    pub asked: Option<u32>,
    pub room: usize,
}

/// What a file is the worst known of, its name, and how it is made from a number of bytes that it stays below.
pub struct File {
    pub of: &'static str,
    pub name: &'static str,
    pub make: fn(usize) -> Made,
}

pub const FILES: &[File] = &[
    file("check", "Predicates over arguments and a path off the blocks", check_arguments),
    file("check", "objects over one run of members", check_objects),
    file("check", "all at once: objects, points, Predicates", check_all),
    file("lookup", "joined names, 20 levels", joined::<20>),
    file("lookup", "joined names, 31 levels", joined::<31>),
    file("lookup", "a path of long names, none joined", long_names),
    file("lookup", "one entity in a list", one_entity),
    file("comparison", "arrays of overlapping arrays", overlapping_arrays),
    file("comparison", "arrays of overlapping arrays of long decimals", overlapping_decimals),
    file("comparison", "shared arrays", shared_arrays),
    file("term", "shared arithmetic above a count", shared_arithmetic),
    file("term", "the same, each leaf a path of long names", shared_lookups),
    file("row pass", "count of 343 rows that differ behind long equal arrays", count_arrays::<7>),
    file("row pass", "count of 15,625 such rows", count_arrays::<25>),
    file("row pass", "since with 343 such rows", since_arrays::<7>),
    file("row pass", "or with 343 such rows", or_arrays::<7>),
    file("row pass", "count of 15,625 rows of Ints with one hash", count_ints),
    file("row pass", "count of 15,625 rows with one long decimal", count_decimals),
    file("row pass", "since with 15,625 rows of points", since_points),
    file("step", "arguments compared by long equal arrays", arguments_of_arrays),
    file("step", "arguments compared by arrays of overlapping arrays", arguments_of_overlapping),
    file("step", "arguments that look up paths of long names", arguments_of_long_names),
    file("step", "arguments that look up an entity", arguments_of_entities),
    file("step", "one count over many binders", many_binders),
];

const fn file(of: &'static str, name: &'static str, make: fn(usize) -> Made) -> File {
    File { of, name, make }
}

/// Levels of objects above an Int: the depth that a value may have.
const DEEPEST: usize = 31;
/// Bytes of a file beside its large tables, at most.
const REST: usize = 1_400;
const MOST_VALUES: usize = 16_384;
const MOST_NODES: usize = 1_024;
const MOST_ROOM: usize = 16_384;
const EQUAL: u32 = 4;
const NO_NAMES: Run = Run { first: 0, count: 0 };
const ALWAYS: casefile::Within = casefile::Within { amount: 1_000, unit: 3 };

// ---- the check

/// Arguments that begin 3 words after a block's start and end 511 after another's, each with a path that has
/// as many single names at both ends: all are read one by one for each Predicate.
fn check_arguments(bytes: usize) -> Made {
    let mut builder = Builder::new(0);
    predicates(&mut builder, bytes.saturating_sub(REST));
    Made { tables: builder.finish(), asked: None, room: 0 }
}

/// As many Predicates as fit, over one run of arguments; what is left of the bytes is more arguments.
fn predicates(builder: &mut Builder, bytes: usize) {
    const ENDS: usize = 1_022;
    const NAMES: usize = 2_046;
    let wildcard = builder.node(Node::Wildcard);
    let whole = 4 * (3 * ENDS + 8 + NAMES) + 32 * (MOST_NODES - 1);
    // a file too small for all has fewer of each
    let (items, names, nodes) = if bytes < whole {
        let side = (bytes / 3).max(64);
        (side / 12, side / 4, side / 32)
    } else {
        (ENDS + (bytes - whole) / 12 / 512 * 512, NAMES, MOST_NODES - 1)
    };
    builder.binders(&[0; 3]);
    let first = 3 + 3 * items as u32;
    // the path's names lie one behind a block's start
    let path = Run { first: (first / 1_024 + 1) * 1_024 + 1, count: names as u32 };
    let arguments = builder.arguments(&vec![(path, wildcard); items]);
    builder.binders(&vec![0; (path.first - first) as usize]);
    builder.names(&vec!["A"; names]);
    let (action, kind) = (builder.string("A"), builder.string("request"));
    for _ in 0..nodes {
        builder.node(Node::Predicate { namespace: NO_NAMES, action, kind, arguments });
    }
}

/// A run of members takes 18 bytes each with their names, an object over it 16.
fn check_objects(bytes: usize) -> Made {
    let mut builder = Builder::new(0);
    objects(&mut builder, bytes.saturating_sub(REST) / 2);
    Made { tables: builder.finish(), asked: None, room: 0 }
}

fn objects(builder: &mut Builder, half: usize) {
    let members = (half / 20).min(MOST_VALUES - 8);
    let names: Vec<String> = (0..members).map(|k| format!("{k:04x}")).collect();
    let zero = builder.int(0);
    let named: Vec<(&str, u32)> = names.iter().map(|name| (name.as_str(), zero)).collect();
    let object = builder.object(&named);
    let run = builder.values()[object as usize];
    for _ in 0..(half / 16).min(MOST_VALUES - 8) {
        builder.value(run);
    }
}

/// 16,382 objects of 16,382 members, 16,384 points over one namespace and one list of entities, and Predicates.
fn check_all(bytes: usize) -> Made {
    let mut builder = Builder::new(0);
    let part = bytes.saturating_sub(REST + 4_096).max(1_500) / 10;
    objects(&mut builder, part);
    let empty = builder.object(&[]);
    let (action, kind) = (builder.string("A"), builder.string("request"));
    predicates(&mut builder, 6 * part);
    let many = (part / 8).min(3_072);
    let names = builder.names(&vec!["A"; many]);
    let ids: Vec<String> = (0..1_024.min(part / 20)).map(|k| format!("{k:04x}")).collect();
    let items: Vec<(&str, &str, u32)> = ids.iter().map(|id| ("A", id.as_str(), empty)).collect();
    let entities = builder.entities(&items);
    let count = entities.count.saturating_sub(2);
    for time in 0..(part / 48).min(16_384) {
        builder.point(Point {
            time: time as i64,
            namespace: Run { first: names.first + 1, count: (many as u32 - 1).min(2_046) },
            action,
            kind,
            logged: empty,
            context: empty,
            principal: None,
            resource: None,
            entities: Run { first: entities.first + 3, count },
        });
    }
    Made { tables: builder.finish(), asked: None, room: 0 }
}

// ---- a lookup

/// Two objects a level, each with names to both of the level below. What led nowhere is kept in one of 3,989
/// places: the two numbers of a level fall into the same one, so each search makes the other be forgotten, and
/// there are 2 to the power of the levels.
fn joined<const LEVELS: usize>(bytes: usize) -> Made {
    // 4 values down and 105 names on is the same place: 4 · 2^32 leaves 105 by 3,989
    const APART: usize = 4;
    const ON: usize = 105;
    let levels = if bytes < 4_096 { 5 } else { LEVELS };
    let parts = |many: usize| vec!["a"; many].join(".");
    let (one, two, three) = (parts(1), parts(ON + 1), parts(2 * ON + 1));
    let mut builder = Builder::new(0);
    let end = builder.int(1);
    let (mut lower, mut upper) = (end, end);
    for _ in 0..levels {
        let next = builder.object(&[(&one, upper), (&two, lower)]);
        for _ in 1..APART {
            builder.int(0);
        }
        upper = builder.object(&[(&two, upper), (&three, lower)]);
        lower = next;
    }
    let path: Vec<&str> = [vec!["a"; levels * (ON + 1) + ON], vec!["b"]].concat();
    ask_context(builder, &[upper], &path)
}

/// `context.NAMES == 1` at one point, with these contexts in a row of points.
fn ask_context(mut builder: Builder, contexts: &[u32], path: &[&str]) -> Made {
    let empty = builder.object(&[]);
    for &context in contexts {
        point(&mut builder, empty, context, None, NO_NAMES);
    }
    let path = builder.names(path);
    let left = builder.node(Node::Context { path });
    let one = builder.int(1);
    let right = builder.node(Node::Literal { value: one });
    let asked = builder.node(Node::Comparison { op: EQUAL, left, right });
    Made { tables: builder.finish(), asked: Some(asked), room: 0 }
}

fn point(builder: &mut Builder, logged: u32, context: u32, principal: Option<u32>, entities: Run) {
    let (action, kind) = (builder.string("A"), builder.string("request"));
    let time = builder.point_count() as i64;
    builder.point(Point {
        time,
        namespace: NO_NAMES,
        action,
        kind,
        logged,
        context,
        principal,
        resource: None,
        entities,
    });
}

/// A name of so many bytes; the string behind it is the same up to its last byte, so all of it is read to see
/// that it joins nothing.
fn long_name(builder: &mut Builder, bytes: usize) -> String {
    builder.string(&format!("{}b ", "a".repeat(bytes - 1)));
    "a".repeat(bytes)
}

/// Every name of the path is held against the string behind it before anything is looked up.
fn long_names(bytes: usize) -> Made {
    let half = bytes.saturating_sub(REST) / 2;
    let mut builder = Builder::new(0);
    let name = long_name(&mut builder, half / 2);
    let one = builder.int(1);
    let context = builder.object(&[(&name, one)]);
    ask_context(builder, &[context], &vec![name.as_str(); half / 4])
}

fn one_entity(bytes: usize) -> Made {
    let mut builder = Builder::new(0);
    let (principal, entities) = entities(&mut builder, bytes.saturating_sub(REST));
    let path = builder.names(&["n"]);
    let left = builder.node(Node::Scope { root: 0, path });
    let one = builder.int(1);
    let right = builder.node(Node::Literal { value: one });
    let asked = builder.node(Node::Comparison { op: EQUAL, left, right });
    let empty = builder.object(&[]);
    point(&mut builder, empty, empty, Some(principal), entities);
    Made { tables: builder.finish(), asked: Some(asked), room: 0 }
}

/// A list of entities, and the last of them as a value: {n: 1}.
fn entities(builder: &mut Builder, bytes: usize) -> (u32, Run) {
    // a name takes 11 bytes more
    let side = (bytes as f64 / 12.0).sqrt() as usize - 1;
    let names: Vec<String> = (0..side).map(|k| format!("{k:03x}")).collect();
    let one = builder.int(1);
    let attributes = builder.object(&[("n", one)]);
    let pairs = names.iter().flat_map(|ty| names.iter().map(move |id| (ty.as_str(), id.as_str(), attributes)));
    let items: Vec<(&str, &str, u32)> = pairs.collect();
    let last = names.last().expect("there is one");
    (builder.entity(last, last), builder.entities(&items))
}

// ---- a comparison

/// Two equal arrays of arrays, no two of them joined before they are met: each is one behind the other in one
/// run, and so is what they hold. So many arrays times so many members are looked at.
fn windows(builder: &mut Builder, arrays: usize, members: &[u32]) -> (u32, u32) {
    let whole = builder.array(members);
    let Value::Array(run) = builder.values()[whole as usize] else { unreachable!("it is an array") };
    let count = (members.len() - arrays) as u32;
    let window = |k: usize| Value::Array(Run { first: run.first + k as u32, count });
    let inner: Vec<u32> = (0..arrays).map(|k| builder.value(window(k))).collect();
    let outer = builder.array(&inner);
    let Value::Array(run) = builder.values()[outer as usize] else { unreachable!("it is an array") };
    let count = run.count - 1;
    let left = builder.value(Value::Array(Run { first: run.first, count }));
    let right = builder.value(Value::Array(Run { first: run.first + 1, count }));
    (left, right)
}

/// The two windows of a run of zeros: an array of 24 bytes with its place in the outer one, a member of 8.
fn zero_windows(builder: &mut Builder, bytes: usize) -> (u32, u32) {
    let arrays = (bytes / 2 / 24).min(MOST_VALUES - 64);
    let zero = builder.int(0);
    windows(builder, arrays, &vec![zero; (bytes - 24 * arrays) / 8])
}

fn compared(mut builder: Builder, (a, b): (u32, u32)) -> Made {
    let empty = builder.object(&[]);
    point(&mut builder, empty, empty, None, NO_NAMES);
    let left = builder.node(Node::Literal { value: a });
    let right = builder.node(Node::Literal { value: b });
    let asked = builder.node(Node::Comparison { op: EQUAL, left, right });
    Made { tables: builder.finish(), asked: Some(asked), room: 0 }
}

fn overlapping_arrays(bytes: usize) -> Made {
    let mut builder = Builder::new(0);
    let both = zero_windows(&mut builder, bytes.saturating_sub(REST));
    compared(builder, both)
}

/// Decimals are read anew wherever two are compared.
fn overlapping_decimals(bytes: usize) -> Made {
    let third = bytes.saturating_sub(REST) / 3;
    let mut builder = Builder::new(0);
    let zeros = "0".repeat(third / 2);
    let (one, other) = (builder.decimal(&format!("{zeros}1.0")), builder.decimal(&format!("{zeros}1.00")));
    let arrays = (third / 24).min(MOST_VALUES - 64);
    let members: Vec<u32> = (0..third / 8).map(|k| if k % 2 == 0 { one } else { other }).collect();
    let both = windows(&mut builder, arrays.min(members.len() / 2), &members);
    compared(builder, both)
}

/// Each array has the one below it as every item, and there are two of each level.
fn shared_arrays(bytes: usize) -> Made {
    let mut builder = Builder::new(0);
    let items = bytes.saturating_sub(REST) / (2 * DEEPEST * 8);
    let (mut a, mut b) = (builder.int(1), builder.int(1));
    for _ in 0..DEEPEST.min(if bytes < 4_096 { 4 } else { DEEPEST }) {
        (a, b) = (builder.array(&vec![a; items]), builder.array(&vec![b; items]));
    }
    compared(builder, (a, b))
}

// ---- a term

/// Terms above each other, each the sum of one large term and the next; the last has a count. Each of them
/// is gone through before it is left to the evaluators, and then its left side again.
fn above_a_count(mut builder: Builder, leaf: Node, logged: u32, context: u32) -> Made {
    const ABOVE: usize = 48;
    point(&mut builder, logged, context, None, NO_NAMES);
    let leaf = builder.node(leaf);
    let add = |builder: &mut Builder, left, right| builder.node(Node::Arithmetic { op: 0, left, right });
    let mut large: Vec<u32> = (0..448).map(|_| add(&mut builder, leaf, leaf)).collect();
    while large.len() > 1 {
        let pairs: Vec<(u32, u32)> = large.chunks(2).map(|pair| (pair[0], pair[pair.len() - 1])).collect();
        large = pairs.into_iter().map(|(left, right)| add(&mut builder, left, right)).collect();
    }
    let (action, kind) = (builder.string("A"), builder.string("request"));
    let body = builder.node(Node::Predicate { namespace: NO_NAMES, action, kind, arguments: NO_NAMES });
    let aggregate = builder.node(Node::Count { binders: NO_NAMES, body });
    let mut term = builder.node(Node::Aggregate { aggregate });
    for _ in 0..ABOVE {
        term = add(&mut builder, large[0], term);
    }
    let asked = builder.node(Node::Comparison { op: EQUAL, left: term, right: leaf });
    Made { tables: builder.finish(), asked: Some(asked), room: 4 }
}

fn shared_arithmetic(_: usize) -> Made {
    let mut builder = Builder::new(0);
    let value = builder.int(1);
    let empty = builder.object(&[]);
    above_a_count(builder, Node::Literal { value }, empty, empty)
}

fn shared_lookups(bytes: usize) -> Made {
    let mut builder = Builder::new(0);
    let text = bytes.saturating_sub(32 * MOST_NODES + REST).max(200);
    let name = long_name(&mut builder, text / 2);
    let (context, path) = nested(&mut builder, &name);
    let empty = builder.object(&[]);
    above_a_count(builder, Node::Context { path }, empty, context)
}

/// Objects around a 1, as many as there may be, each with this one name; and the path to it.
fn nested(builder: &mut Builder, name: &str) -> (u32, Run) {
    let mut object = builder.int(1);
    for _ in 0..DEEPEST {
        object = builder.object(&[(name, object)]);
    }
    (object, builder.names(&[name; DEEPEST]))
}

// ---- a row pass

/// A point for each of so many arrays, in `x` of what is logged, that are equal up to some item near their end.
fn long_arrays(builder: &mut Builder, many: usize, bytes: usize) {
    let items = bytes / 8;
    let (zero, one) = (builder.int(0), builder.int(1));
    let mut members = vec![zero; items];
    members[items - many - 1] = one;
    let whole = builder.array(&members);
    let Value::Array(run) = builder.values()[whole as usize] else { unreachable!("it is an array") };
    let count = (items - many) as u32;
    for k in 0..many as u32 {
        let array = builder.value(Value::Array(Run { first: run.first + k, count }));
        let logged = builder.object(&[("x", array)]);
        point(builder, logged, logged, None, NO_NAMES);
    }
}

/// `formerly A(NAME: V)`.
fn found(builder: &mut Builder, name: &str, variable: u32) -> u32 {
    let path = builder.names(&[name]);
    let (action, kind) = (builder.string("A"), builder.string("request"));
    let term = builder.node(Node::Variable { variable });
    let arguments = builder.arguments(&[(path, term)]);
    let body = builder.node(Node::Predicate { namespace: NO_NAMES, action, kind, arguments });
    builder.node(Node::Formerly { within: ALWAYS, body })
}

/// `formerly A(x: V)` for three variables, joined: a row for each three points.
fn three_of_them(builder: &mut Builder) -> u32 {
    let first = found(builder, "x", 0);
    and_two_more(builder, first)
}

fn and_two_more(builder: &mut Builder, first: u32) -> u32 {
    (1..3).fold(first, |left, variable| {
        let right = found(builder, "x", variable);
        builder.node(Node::And { left, right })
    })
}

fn counted(mut builder: Builder, body: u32) -> Made {
    let binders = builder.binders(&[0, 1, 2]);
    let asked = builder.node(Node::Count { binders, body });
    Made { tables: builder.finish(), asked: Some(asked), room: MOST_ROOM }
}

fn rows_of_arrays(many: usize, bytes: usize) -> Builder {
    let mut builder = Builder::new(3);
    let small = bytes < 8_192;
    let many = if small { 3 } else { many };
    long_arrays(&mut builder, many, bytes.saturating_sub(REST + 88 * many).max(400));
    builder
}

fn count_arrays<const MANY: usize>(bytes: usize) -> Made {
    let mut builder = rows_of_arrays(MANY, bytes);
    let body = three_of_them(&mut builder);
    counted(builder, body)
}

/// All rows are anchors of the last point, where nothing is left to be asked of the left side.
fn since_rows(mut builder: Builder, right: u32) -> Made {
    let left = builder.node(Node::Tp { variable: 0 });
    let within = casefile::Within { amount: 0, unit: 0 };
    let body = builder.node(Node::Since { left, right, within });
    let asked = builder.node(Node::Exists { variable: 0, body });
    Made { tables: builder.finish(), asked: Some(asked), room: MOST_ROOM }
}

fn since_arrays<const MANY: usize>(bytes: usize) -> Made {
    let mut builder = rows_of_arrays(MANY, bytes);
    let right = three_of_them(&mut builder);
    since_rows(builder, right)
}

/// The same rows on both sides; the right's are held against all.
fn or_arrays<const MANY: usize>(bytes: usize) -> Made {
    let mut builder = rows_of_arrays(MANY, bytes);
    let left = three_of_them(&mut builder);
    let right = three_of_them(&mut builder);
    let body = builder.node(Node::Or { left, right });
    counted(builder, body)
}

/// 25 Ints that are the same by 2^31 - 1, which is what a hash takes of them.
fn count_ints(bytes: usize) -> Made {
    let mut builder = Builder::new(3);
    for k in 0..if bytes < 8_192 { 4 } else { 25 } {
        let int = builder.int(k * 2_147_483_647);
        let logged = builder.object(&[("x", int)]);
        point(&mut builder, logged, logged, None, NO_NAMES);
    }
    let body = three_of_them(&mut builder);
    counted(builder, body)
}

/// A row's hash reads its decimal, and each row has the same one, of most of the file's bytes.
fn count_decimals(bytes: usize) -> Made {
    let mut builder = Builder::new(4);
    let many = if bytes < 8_192 { 4 } else { 25 };
    let zeros = "0".repeat(bytes.saturating_sub(REST + 88 * many).max(100));
    let decimal = builder.decimal(&format!("{zeros}1.5"));
    for k in 0..many {
        let int = builder.int(k as i64);
        let logged = if k == 0 { builder.object(&[("d", decimal), ("x", int)]) } else { builder.object(&[("x", int)]) };
        point(&mut builder, logged, logged, None, NO_NAMES);
    }
    let first = found(&mut builder, "d", 3);
    let right = found(&mut builder, "x", 0);
    let first = builder.node(Node::And { left: first, right });
    let body = and_two_more(&mut builder, first);
    let binders = builder.binders(&[0, 1, 2, 3]);
    let asked = builder.node(Node::Count { binders, body });
    Made { tables: builder.finish(), asked: Some(asked), room: MOST_ROOM }
}

/// The numbers of 25 points, three at a time.
fn since_points(bytes: usize) -> Made {
    let mut builder = Builder::new(3);
    let empty = builder.object(&[]);
    for _ in 0..if bytes < 8_192 { 4 } else { 25 } {
        point(&mut builder, empty, empty, None, NO_NAMES);
    }
    let found: Vec<u32> = (0..3)
        .map(|variable| {
            let body = builder.node(Node::Tp { variable });
            builder.node(Node::Formerly { within: ALWAYS, body })
        })
        .collect();
    let left = builder.node(Node::And { left: found[0], right: found[1] });
    let right = builder.node(Node::And { left, right: found[2] });
    since_rows(builder, right)
}

// ---- a step

/// One Predicate whose arguments all say that `x` is this term, at one point where it is.
fn arguments(mut builder: Builder, bytes: usize, term: Node) -> Made {
    let x = builder.names(&["x"]);
    let term = builder.node(term);
    let arguments = builder.arguments(&vec![(x, term); bytes / 12]);
    let (action, kind) = (builder.string("A"), builder.string("request"));
    let asked = builder.node(Node::Predicate { namespace: NO_NAMES, action, kind, arguments });
    Made { tables: builder.finish(), asked: Some(asked), room: 0 }
}

fn arguments_of_arrays(bytes: usize) -> Made {
    let half = bytes.saturating_sub(REST) / 2;
    let mut builder = Builder::new(0);
    let zero = builder.int(0);
    let whole = builder.array(&vec![zero; half / 8]);
    let Value::Array(run) = builder.values()[whole as usize] else { unreachable!("it is an array") };
    let count = run.count - 1;
    let a = builder.value(Value::Array(Run { first: run.first, count }));
    let b = builder.value(Value::Array(Run { first: run.first + 1, count }));
    logs(&mut builder, a);
    arguments(builder, half, Node::Literal { value: b })
}

/// A point that logs x.
fn logs(builder: &mut Builder, x: u32) {
    let logged = builder.object(&[("x", x)]);
    point(builder, logged, logged, None, NO_NAMES);
}

fn arguments_of_overlapping(bytes: usize) -> Made {
    let third = bytes.saturating_sub(REST) / 3;
    let mut builder = Builder::new(0);
    let (a, b) = zero_windows(&mut builder, 2 * third);
    logs(&mut builder, a);
    arguments(builder, third, Node::Literal { value: b })
}

fn arguments_of_long_names(bytes: usize) -> Made {
    let half = bytes.saturating_sub(REST + 800) / 2;
    let mut builder = Builder::new(0);
    let name = long_name(&mut builder, half / 2);
    let (context, path) = nested(&mut builder, &name);
    let one = builder.int(1);
    let logged = builder.object(&[("x", one)]);
    point(&mut builder, logged, context, None, NO_NAMES);
    arguments(builder, half, Node::Context { path })
}

fn arguments_of_entities(bytes: usize) -> Made {
    let half = bytes.saturating_sub(REST) / 2;
    let mut builder = Builder::new(0);
    let (principal, entities) = entities(&mut builder, half);
    let one = builder.int(1);
    let logged = builder.object(&[("x", one)]);
    point(&mut builder, logged, logged, Some(principal), entities);
    let path = builder.names(&["n"]);
    arguments(builder, half, Node::Scope { root: 0, path })
}

/// Each binder is unbound in an environment of its own.
fn many_binders(bytes: usize) -> Made {
    let mut builder = Builder::new(1);
    let empty = builder.object(&[]);
    point(&mut builder, empty, empty, None, NO_NAMES);
    let body = builder.node(Node::Tp { variable: 0 });
    let binders = builder.binders(&vec![0; bytes.saturating_sub(REST) / 4]);
    let asked = builder.node(Node::Count { binders, body });
    Made { tables: builder.finish(), asked: Some(asked), room: 4 }
}
