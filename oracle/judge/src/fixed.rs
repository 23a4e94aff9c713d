//! Calls made by hand for the list of answers. Each tells document 01 from a slip that random calls
//! hardly hit on.

use casefile::{Builder, Node, Point, Run, Tables, Within};
use generate::examples::examples;
use generate::{Call, Kind};

/// A case and the calls on it.
pub struct Fixed {
    pub tables: Tables,
    pub calls: Vec<Call>,
}

const EQ: u32 = 4;
const ADD: u32 = 0;
const SUB: u32 = 1;
const PRINCIPAL: u32 = 0;
const DAY: Within = Within { amount: 1, unit: 3 };

/// The cases, each named by the slip that its calls catch.
pub fn fixed() -> Vec<Fixed> {
    vec![add_and_sub_exchanged(), leaf_at_the_point_examined(), right_side_resolved(), own_part_under_a_path()]
}

/// Document 02's example on names with dots and its neighbours, as `examples/expected.txt` has them, and
/// which of two equal texts a variable is bound to.
pub fn dots() -> Result<Vec<Fixed>, String> {
    let examples = examples()?;
    let calls: Vec<Call> =
        examples.expected.iter().filter(|example| example.file == "dots").map(|example| example.call.clone()).collect();
    let tables = examples.cases.get("dots").ok_or("there are no examples on dots")?.tables.clone();
    Ok(vec![Fixed { tables, calls }, cell_of_the_last_written()])
}

/// `x == context.a.b` over {a: {b: "one"}, "a.b": "one"}: the cell has the second one's number.
fn cell_of_the_last_written() -> Fixed {
    let mut made = Making::new(1);
    let [first, second] = ["one", "one"].map(|text| made.builder.text(text));
    let below = made.builder.object(&[("b", first)]);
    let context = made.builder.object(&[("a", below), ("a.b", second)]);
    let empty = made.builder.object(&[]);
    made.point(empty, context, None);
    let variable = made.builder.node(Node::Variable { variable: 0 });
    let path = made.builder.names(&["a", "b"]);
    let found = made.builder.node(Node::Context { path });
    let node = made.equal(variable, found);
    let call =
        Call { room: 1, workspace: 2, binders: vec![0], output: 3, start: vec![0, 0], ..asked(Kind::Rows, 0, node) };
    made.done(vec![call])
}

/// Two reviews, n 1 and n 2, and what they find for one variable: `formerly within 1d Review(n: x)`.
pub fn two_rows() -> Fixed {
    let mut made = Making::new(1);
    let (first, second) = (made.record(&[("n", 1)]), made.record(&[("n", 2)]));
    let empty = made.builder.object(&[]);
    made.point(first, empty, None);
    made.point(second, empty, None);
    let name = made.builder.names(&["n"]);
    let variable = made.builder.node(Node::Variable { variable: 0 });
    let arguments = made.builder.arguments(&[(name, variable)]);
    let (action, kind) = (made.builder.string("Review"), made.builder.string("request"));
    let body = made.builder.node(Node::Predicate { namespace: Run::default(), action, kind, arguments });
    let node = made.builder.node(Node::Formerly { within: DAY, body });
    let call =
        Call { room: 3, workspace: 8, binders: vec![0], output: 6, start: vec![0, 0], ..asked(Kind::Rows, 1, node) };
    made.done(vec![call])
}

fn asked(kind: Kind, point: u32, node: u32) -> Call {
    Call { kind, point, node, limit: 100, room: 1, ..Call::check() }
}

/// `3 + 1 == 4` and `3 - 1 == 2`.
fn add_and_sub_exchanged() -> Fixed {
    let mut made = Making::new(0);
    made.one_point();
    let [one, two, three, four] = [1, 2, 3, 4].map(|n| made.int(n));
    let (sum, difference) = (made.arithmetic(ADD, three, one), made.arithmetic(SUB, three, one));
    let (added, taken) = (made.equal(sum, four), made.equal(difference, two));
    made.done(vec![asked(Kind::Ask, 0, added), asked(Kind::Ask, 0, taken)])
}

/// `formerly within 1d context.a == 1`, where a is 1 at point 0 and 2 at point 1.
fn leaf_at_the_point_examined() -> Fixed {
    let mut made = Making::new(0);
    let empty = made.builder.object(&[]);
    for a in [1, 2] {
        let context = made.record(&[("a", a)]);
        made.point(empty, context, None);
    }
    let path = made.builder.names(&["a"]);
    let context = made.builder.node(Node::Context { path });
    let one = made.int(1);
    let body = made.equal(context, one);
    let node = made.builder.node(Node::Formerly { within: DAY, body });
    made.done(vec![asked(Kind::Ask, 0, node), asked(Kind::Ask, 1, node)])
}

/// `"x" + count(..) == 1`: the count is not walked, since "x" is no Int. And the count's node of kind
/// 25 is a term: neither a number nor a condition.
fn right_side_resolved() -> Fixed {
    let mut made = Making::new(0);
    made.one_point();
    let one = made.int(1);
    let yes = made.equal(one, one);
    let count = made.builder.node(Node::Count { binders: Run::default(), body: yes });
    let term = made.builder.node(Node::Aggregate { aggregate: count });
    let value = made.builder.text("x");
    let text = made.builder.node(Node::Literal { value });
    let (text_first, count_first) = (made.arithmetic(ADD, text, term), made.arithmetic(ADD, term, text));
    let (stopped, walked) = (made.equal(text_first, one), made.equal(count_first, one));
    made.done(vec![
        asked(Kind::Ask, 0, stopped),
        asked(Kind::Ask, 0, walked),
        asked(Kind::Ask, 0, count),
        asked(Kind::Ask, 0, term),
        asked(Kind::Rows, 0, term),
    ])
}

/// `principal.id == "ann"` holds, `principal.id.x == "ann"` does not resolve.
fn own_part_under_a_path() -> Fixed {
    let mut made = Making::new(0);
    let empty = made.builder.object(&[]);
    let ann = made.builder.entity("User", "ann");
    made.point(empty, empty, Some(ann));
    let value = made.builder.text("ann");
    let name = made.builder.node(Node::Literal { value });
    let calls = [&["id"][..], &["id", "x"]].map(|names| {
        let path = made.builder.names(names);
        let part = made.builder.node(Node::Scope { root: PRINCIPAL, path });
        asked(Kind::Ask, 0, made.equal(part, name))
    });
    made.done(calls.to_vec())
}

/// A case in the making, all of whose events are reviews, a second apart.
struct Making {
    builder: Builder,
    time: i64,
}

impl Making {
    fn new(variables: u32) -> Making {
        Making { builder: Builder::new(variables), time: 0 }
    }

    fn point(&mut self, logged: u32, context: u32, principal: Option<u32>) {
        let (action, kind) = (self.builder.string("Review"), self.builder.string("request"));
        let (namespace, entities) = (Run::default(), Run::default());
        let time = self.time;
        self.builder.point(Point {
            time,
            namespace,
            action,
            kind,
            logged,
            context,
            principal,
            resource: None,
            entities,
        });
        self.time += 1;
    }

    fn one_point(&mut self) {
        let empty = self.builder.object(&[]);
        self.point(empty, empty, None);
    }

    fn record(&mut self, members: &[(&str, i64)]) -> u32 {
        let members: Vec<(&str, u32)> = members.iter().map(|&(name, n)| (name, self.builder.int(n))).collect();
        self.builder.object(&members)
    }

    fn int(&mut self, n: i64) -> u32 {
        let value = self.builder.int(n);
        self.builder.node(Node::Literal { value })
    }

    fn arithmetic(&mut self, op: u32, left: u32, right: u32) -> u32 {
        self.builder.node(Node::Arithmetic { op, left, right })
    }

    fn equal(&mut self, left: u32, right: u32) -> u32 {
        self.builder.node(Node::Comparison { op: EQ, left, right })
    }

    fn done(self, calls: Vec<Call>) -> Fixed {
        Fixed { tables: self.builder.finish(), calls }
    }
}
