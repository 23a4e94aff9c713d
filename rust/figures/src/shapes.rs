//! The shapes that are timed: a case with so many points, and the question at its last point.

use std::fmt::Write;

use casefile::text::{pack, Packed};

/// A shape of case and rule.
pub struct Shape {
    pub name: &'static str,
    /// Points at 1x; 4x and 16x are timed, too.
    pub points: usize,
    /// Room for rows; shapes without rows take what the program `bench` does.
    pub room: usize,
    /// The Rust's time doubles with each level of what is shared: it is not asked.
    pub alone: bool,
    text: fn(usize) -> String,
}

const WIDE: usize = 400;
const FEW: usize = 256;
const ALL: usize = 16_384;

/// A shape that both are asked, with room for what the program `bench` takes.
const fn shape(name: &'static str, points: usize, text: fn(usize) -> String) -> Shape {
    Shape { name, points, room: FEW, alone: false, text }
}

/// A shape that both are asked, with all the room there is.
const fn roomy(name: &'static str, points: usize, text: fn(usize) -> String) -> Shape {
    Shape { room: ALL, ..shape(name, points, text) }
}

const fn alone(name: &'static str, points: usize, text: fn(usize) -> String) -> Shape {
    Shape { alone: true, ..shape(name, points, text) }
}

pub const SHAPES: &[Shape] = &[
    shape("formerly, hit at once", 1_000, hit_at_once),
    shape("formerly, hit at the far end", 1_000, hit_at_the_end),
    shape("formerly, miss", 1_000, miss),
    shape("formerly, miss, decimals", 1_000, decimals),
    shape("three arguments with a decimal", 1_000, three_arguments),
    shape("predicate and comparison", 1_000, and_comparison),
    shape("since, hit at the far end", 1_000, since_hit),
    shape("since, no hit", 1_000, since_miss),
    shape("formerly of a since", 125, formerly_since),
    roomy("count, no repeats", 1_000, count_distinct),
    roomy("count, 8 rows repeated", 1_000, count_repeated),
    roomy("sum, no repeats", 1_000, sum_distinct),
    roomy("or of rows", 1_000, or_of_rows),
    roomy("since of rows", 1_000, since_of_rows),
    shape("count at each point", 125, count_each),
    shape("And/Or 40 deep, at each point", 250, deep_tree),
    shape("context of 400 members", 1_000, wide_context),
    shape("context of 400 members, two names", 1_000, wide_context_below),
    shape("context of 400 members with dots", 1_000, wide_context_dotted),
    shape("logged record of 400 fields", 1_000, wide_logged),
    shape("correlated exists", 125, correlated),
    shape("flat arrays", 1_000, flat_arrays),
    shape("arrays that differ at once", 1_000, unlike_arrays),
    shape("nested arrays", 1_000, nested_arrays),
    shape("shared arrays, 8 levels", 25, |points| shared_arrays(points, 8)),
    alone("shared arrays, 29 levels", 25, |points| shared_arrays(points, 29)),
    shape("shared terms, 8 levels", 25, |points| shared_terms(points, 8)),
    alone("shared terms, 60 levels", 25, |points| shared_terms(points, 60)),
];

impl Shape {
    pub fn case(&self, points: usize) -> Result<Packed, String> {
        pack(&(self.text)(points)).map_err(|fault| format!("{}: {fault}", self.name))
    }
}

/// Points a second apart, each an action with one of the named objects as its logged record.
fn log(points: usize, point: impl Fn(usize) -> String) -> String {
    (0..points).fold(String::new(), |mut text, k| {
        writeln!(text, "point {} {}", 1_000 + k, point(k)).expect("a string takes all");
        text
    })
}

/// `value o0 = {board: "b0", n: 0}` and so on.
fn objects(count: usize) -> String {
    (0..count).map(|k| format!("value o{k} = {{board: \"b{k}\", n: {k}}}\n")).collect()
}

fn flashes(points: usize) -> String {
    objects(8) + &log(points, |k| format!("Flash logged @o{}", k % 8))
}

/// A review at point 0, flashes after it.
fn reviewed_once(points: usize) -> String {
    objects(8) + &log(points, |k| format!("{} logged @o{}", if k == 0 { "Review" } else { "Flash" }, k % 8))
}

fn hit_at_once(points: usize) -> String {
    flashes(points) + "rule asked = formerly within 9d Flash(n: *)"
}

fn hit_at_the_end(points: usize) -> String {
    reviewed_once(points) + "rule asked = formerly within 9d Review(board: \"b0\")"
}

fn miss(points: usize) -> String {
    flashes(points) + "rule asked = formerly within 9d Flash(board: \"b9\")"
}

fn decimals(points: usize) -> String {
    let log = log(points, |_| "Flash logged @rail".to_string());
    format!("value rail = {{volts: decimal \"3.3000\"}}\n{log}rule asked = formerly within 9d Flash(volts: decimal \"3.31\")")
}

fn since_hit(points: usize) -> String {
    reviewed_once(points) + "rule asked = Flash(n: *) since within 9d Review(board: \"b0\")"
}

fn since_miss(points: usize) -> String {
    flashes(points) + "rule asked = Flash(n: *) since within 9d Review(board: \"b0\")"
}

fn count_distinct(points: usize) -> String {
    let rule = "loose number asked = count for t where formerly within 9d (Flash(n: n) and tp t)";
    format!("variables t n\n{}{rule}", flashes(points))
}

fn count_repeated(points: usize) -> String {
    let rule = "number asked = count for n where formerly within 9d Flash(n: n)";
    format!("variables t n\n{}{rule}", flashes(points))
}

fn sum_distinct(points: usize) -> String {
    let rule = "loose number asked = sum t for t where formerly within 9d (Flash(n: n) and tp t)";
    format!("variables t n\n{}{rule}", flashes(points))
}

/// `no or (yes and (no or (yes and .. no)))`, 40 levels.
fn deep_tree(points: usize) -> String {
    let level = |inner: String, _| format!("Flash(board: \"b9\") or (Flash(n: *) and ({inner}))");
    let tree = (0..20).fold("Flash(board: \"b9\")".to_string(), level);
    flashes(points) + &format!("rule asked = formerly within 9d ({tree})")
}

/// `{m000: "v000", ..}`, of 400 members.
fn wide_object() -> String {
    let members: Vec<String> = (0..WIDE).map(|k| format!("m{k:03}: \"v{k:03}\"")).collect();
    format!("{{{}}}", members.join(", "))
}

fn wide_context(points: usize) -> String {
    let log = log(points, |k| format!("Flash logged @o{} context @wide", k % 8));
    let rule = "rule asked = formerly within 9d Flash(board: context.m399)";
    format!("{}value wide = {}\n{log}{rule}", objects(8), wide_object())
}

/// A path of two names through the last of 400 members; no name of the file holds a dot.
fn wide_context_below(points: usize) -> String {
    let log = log(points, |k| format!("Flash logged @o{} context @wide", k % 8));
    let members: Vec<String> = (0..WIDE).map(|k| format!("m{k}: @below")).collect();
    let rule = "rule asked = formerly within 9d Flash(board: context.m399.board)";
    let wide = members.join(", ");
    format!("{}value below = {{board: \"b9\"}}\nvalue wide = {{{wide}}}\n{log}{rule}", objects(8))
}

/// The same of 400 members with a dot each.
fn wide_context_dotted(points: usize) -> String {
    let log = log(points, |k| format!("Flash logged @o{} context @wide", k % 8));
    let members: Vec<String> = (0..WIDE).map(|k| format!("\"uart.{k}\": \"b9\"")).collect();
    let rule = "rule asked = formerly within 9d Flash(board: context.uart.399)";
    format!("{}value wide = {{{}}}\n{log}{rule}", objects(8), members.join(", "))
}

fn wide_logged(points: usize) -> String {
    let log = log(points, |_| "Flash logged @wide".to_string());
    format!("value wide = {}\n{log}rule asked = formerly within 9d Flash(m399: \"b9\")", wide_object())
}

/// A flash of a board that was never reviewed: each board was, at the far end.
fn correlated(points: usize) -> String {
    let log = log(points, |k| format!("{} logged @o{}", if k < 8 { "Review" } else { "Flash" }, k % 8));
    let rule = "rule asked = formerly within 9d exists b (Flash(board: b) and not formerly within 9d Review(board: b))";
    format!("variables b\n{}{log}{rule}", objects(8))
}

fn three_arguments(points: usize) -> String {
    let rail = |k| format!("value o{k} = {{board: \"b{k}\", n: {k}, volts: decimal \"3.3000\"}}\n");
    let log = log(points, |k| format!("Flash logged @o{}", k % 8));
    let rule = "rule asked = formerly within 9d Flash(board: *, volts: decimal \"3.3\", n: 9)";
    (0..8).map(rail).collect::<String>() + &log + rule
}

fn and_comparison(points: usize) -> String {
    let log = log(points, |k| format!("Flash logged @o{} context @limits", k % 8));
    let rule = "loose rule asked = formerly within 9d (Flash(n: n) and n > context.most)";
    format!("variables n\n{}value limits = {{most: 9}}\n{log}{rule}", objects(8))
}

fn formerly_since(points: usize) -> String {
    reviewed_once(points)
        + "rule asked = formerly within 9d (Flash(n: 9) since within 9d Review(board: \"b0\")) and Review(n: 9)"
}

fn or_of_rows(points: usize) -> String {
    let rule =
        "number asked = count for t, n where formerly within 9d ((Flash(n: n) and tp t) or (Flash(n: n, board: *) and tp t))";
    format!("variables t n\n{}{rule}", flashes(points))
}

/// All rows come at the last point, where left is not tested.
fn since_of_rows(points: usize) -> String {
    let rule =
        "number asked = count for t, n where (Review(n: *) since within 0s formerly within 9d (Flash(n: n) and tp t))";
    format!("variables t n\n{}{rule}", flashes(points))
}

fn count_each(points: usize) -> String {
    let rule = "rule asked = formerly within 9d ((count for n where formerly within 20s Flash(n: n)) > 8)";
    format!("variables n\n{}{rule}", flashes(points))
}

/// Each logged array differs from the context's in the item made of the number.
fn arrays(points: usize, array: impl Fn(usize) -> String) -> String {
    let objects: String = (0..8).map(|k| format!("value o{k} = {{v: {}}}\n", array(k))).collect();
    let log = log(points, |k| format!("Flash logged @o{} context @c", k % 8));
    format!("{objects}value c = {{v: {}}}\n{log}rule asked = formerly within 9d Flash(v: context.v)", array(9))
}

fn flat_arrays(points: usize) -> String {
    arrays(points, |k| format!("[1, 2, 3, 4, 5, 6, 7, {k}]"))
}

/// They differ in their first item.
fn unlike_arrays(points: usize) -> String {
    arrays(points, |k| format!("[{k}, 2, 3, 4, 5, 6, 7, 8]"))
}

fn nested_arrays(points: usize) -> String {
    arrays(points, |k| format!("[[1, 2], [3, 4], [5, 6], [7, {k}]]"))
}

/// Two arrays built apart, equal by decimals, each level of which holds the one below twice.
fn shared_arrays(points: usize, levels: usize) -> String {
    let mut text = String::from("value a0 = [decimal \"1.0\"]\nvalue b0 = [decimal \"1.00\"]\n");
    for (k, below) in (1..=levels).zip(0..) {
        for array in ["a", "b"] {
            writeln!(text, "value {array}{k} = [@{array}{below}, @{array}{below}]").expect("a string takes all");
        }
    }
    writeln!(text, "value o = {{v: @a{levels}}}\nvalue c = {{v: @b{levels}}}").expect("a string takes all");
    let log = log(points, |_| "Flash logged @o context @c".to_string());
    format!("{text}{log}rule asked = formerly within 9d not Flash(v: context.v)")
}

/// A sum of which each level adds the one below to itself.
fn shared_terms(points: usize, levels: usize) -> String {
    let log = log(points, |k| format!("Flash logged @o{} context @c", k % 8));
    let mut text = format!("{}value c = {{n: 0}}\n{log}term t0 = context.n + 1\n", objects(8));
    for (k, below) in (1..=levels).zip(0..) {
        writeln!(text, "term t{k} = @t{below} + @t{below}").expect("a string takes all");
    }
    text + &format!("rule asked = formerly within 9d @t{levels} == 0")
}

#[cfg(test)]
mod tests {
    #[test]
    fn every_shape_is_a_case() {
        for shape in super::SHAPES {
            shape.case(shape.points).expect(shape.name);
        }
    }
}
