//! A question of each shape, put to the crate and to the Rust.

use std::hint::black_box;

use casefile::text::Packed;
use dogwood::extension::temporal::ast::{AggExpr, Condition};
use dogwood::interpreter::eval;
use dogwood::interpreter::value::Trace;
use galivodern::{Answer, Bindings, Case, Limits, PointNo, RuleNo, Sort};
use judge::convert::Converter;

use crate::shapes::{Shape, SHAPES};
use crate::timing::{by_itself, by_turns};

/// The Rust's own form of a rule.
enum Rule {
    Condition(Condition),
    Aggregate(AggExpr),
}

/// In place of the Rust's time where it doubles with each level.
const NOT_ASKED: &str = "not asked";

/// A case and a rule as the Rust has them.
struct Theirs {
    trace: Trace,
    rule: Rule,
}

/// One question, ready to be put to both, or to ours alone.
pub struct Asked {
    case: Case,
    theirs: Option<Theirs>,
    asked: RuleNo,
    point: PointNo,
    limits: Limits,
}

impl Asked {
    pub fn new(packed: &Packed, room: usize, alone: bool) -> Result<Asked, String> {
        let case = Case::new(packed.tables.encode()).map_err(|refusal| refusal.to_string())?;
        let node = packed.node("asked").ok_or("the rule has another name")?;
        let converter = Converter { tables: &packed.tables };
        let (asked, point) = (RuleNo(node), PointNo(case.contents().points - 1));
        let theirs = (!alone).then(|| Theirs {
            trace: converter.trace(),
            rule: match case.sort(asked) {
                Some(Sort::Aggregate) => Rule::Aggregate(converter.aggregate(node)),
                _ => Rule::Condition(converter.condition(node)),
            },
        });
        let limits = Limits { steps: Limits::MOST_STEPS, room };
        Ok(Asked { case, theirs, asked, point, limits })
    }

    /// The answer's number and the steps it took.
    pub fn ours(&self) -> Result<(i64, u64), String> {
        let unbound = Bindings::new();
        let said = self.case.ask(self.point, self.asked, &unbound, self.limits);
        let number = |answer| match answer {
            Answer::Verdict(yes) => i64::from(yes),
            Answer::Number(number) => number,
        };
        said.map(|answer| (number(answer.value), answer.steps)).map_err(|refused| refused.to_string())
    }

    /// The Rust's answer, where it is asked.
    pub fn theirs(&self) -> Option<i64> {
        self.theirs.as_ref().map(|theirs| theirs.answer(self.point.0))
    }
}

impl Theirs {
    /// As a caller of the Rust does it: the request's environment, then the rule.
    fn answer(&self, point: usize) -> i64 {
        let env = eval::request_env(&self.trace, point);
        match &self.rule {
            Rule::Condition(condition) => i64::from(eval::eval_condition(&self.trace, point, &env, condition)),
            Rule::Aggregate(aggregate) => eval::eval_agg_expr(&self.trace, point, &env, aggregate),
        }
    }
}

/// One size of a shape, timed: nanoseconds a question; none of the Rust's where ours is timed alone.
struct Timed {
    points: usize,
    steps: u64,
    ours: f64,
    theirs: Option<f64>,
}

fn timed(shape: &Shape, points: usize) -> Result<Timed, String> {
    let asked = Asked::new(&shape.case(points)?, shape.room, shape.alone)?;
    let (answer, steps) = asked.ours()?;
    let Some(rust) = asked.theirs() else {
        return Ok(Timed { points, steps, ours: by_itself(|| asked.ours()), theirs: None });
    };
    if answer != rust {
        return Err(format!("{}: {answer}, the Rust says {rust}", shape.name));
    }
    let (ours, theirs) = by_turns(|| asked.ours(), || asked.theirs());
    Ok(Timed { points, steps, ours, theirs: Some(theirs) })
}

pub fn print_tables() -> Result<bool, String> {
    println!("| shape | points | steps | proved | the Rust | ratio | proved, ns a step | the Rust |");
    println!("|---|---|---|---|---|---|---|---|");
    let mut growth = Vec::new();
    for shape in SHAPES {
        let sizes = [1, 4, 16].map(|times| timed(shape, times * shape.points));
        let sizes: Vec<Timed> = sizes.into_iter().collect::<Result<_, _>>()?;
        for Timed { points, steps, ours, theirs } in &sizes {
            let per_step = |time: f64| format!("{:.1}", time / *steps as f64);
            println!(
                "| {} | {points} | {steps} | {} | {} | {} | {} | {} |",
                shape.name,
                shown(*ours),
                theirs.map_or(NOT_ASKED.to_string(), shown),
                theirs.map_or(String::new(), |time| format!("{:.2}", time / ours)),
                per_step(*ours),
                theirs.map_or(String::new(), per_step),
            );
        }
        growth.push((shape.name, sizes));
    }
    println!("\n| shape | steps, 4x and 16x the points | proved | the Rust |");
    println!("|---|---|---|---|");
    for (name, sizes) in &growth {
        let times = |of: fn(&Timed) -> Option<f64>| match sizes.iter().map(of).collect::<Option<Vec<f64>>>() {
            Some(of) => format!("{:.1}, {:.1}", of[1] / of[0], of[2] / of[0]),
            None => NOT_ASKED.to_string(),
        };
        let (steps, ours) = (times(|timed| Some(timed.steps as f64)), times(|timed| Some(timed.ours)));
        println!("| {name} | {steps} | {ours} | {} |", times(|timed| timed.theirs));
    }
    Ok(true)
}

/// Nanoseconds in a handy unit.
pub fn shown(time: f64) -> String {
    match time {
        t if t < 1e3 => format!("{t:.0} ns"),
        t if t < 1e6 => format!("{:.1} µs", t / 1e3),
        t if t < 1e9 => format!("{:.1} ms", t / 1e6),
        t => format!("{:.2} s", t / 1e9),
    }
}

/// One shape at 4x, so many times, of one side alone: for a profiler.
pub fn once(name: &str, times: u64, rust: bool) -> Result<bool, String> {
    let shape = SHAPES.iter().find(|shape| shape.name == name).ok_or(format!("there is no shape `{name}`"))?;
    if rust && shape.alone {
        return Err(format!("the Rust is {NOT_ASKED} of `{name}`"));
    }
    let asked = Asked::new(&shape.case(4 * shape.points)?, shape.room, !rust)?;
    for _ in 0..times {
        if rust {
            black_box(asked.theirs());
        } else {
            black_box(asked.ours()?);
        }
    }
    println!("{name}: {times} times {} steps", asked.ours()?.1);
    Ok(true)
}
