//! The calls of libcapi.a as a C program makes them, with any buffers; and the crate beside them.

use galivodern::{Answer, Answered, Bindings, Bound, Case, Limits, PointNo, RuleNo, VariableNo};
use generate::calls::{output_fill, workspace_fill, Done};
use generate::{Call, Kind};
use model::Outcome;

/// Declares calls of galivodern.h whose parameters are the same, and their type.
macro_rules! c_calls {
    ($type:ident $parameters:tt: $($call:ident),*) => {
        type $type = unsafe extern "C" fn $parameters -> u64;
        extern "C" {
            $(fn $call $parameters -> u64;)*
        }
    };
}

c_calls!(Ask (
    file: *const u8, file_len: usize, point: usize, node: u32, start: *const u64, start_len: usize, steps: u64,
    room: usize, work: *mut u64, work_len: usize, told: *mut u64, told_len: usize
): galivodern_ask, galivodern_checked_ask);

c_calls!(List (
    file: *const u8, file_len: usize, point: usize, node: u32, start: *const u64, start_len: usize, steps: u64,
    room: usize, work: *mut u64, work_len: usize, binders: *const u32, binders_len: usize, output: *mut u64,
    output_len: usize, told: *mut u64, told_len: usize
): galivodern_rows, galivodern_checked_rows);

extern "C" {
    fn galivodern_check(file: *const u8, file_len: usize, contents: *mut u64, contents_len: usize) -> u64;
}

/// What the check returns.
pub fn check(case: &[u8]) -> u32 {
    let mut contents = [0; 5];
    // SAFETY: both slices are live and apart, and the call takes any bytes.
    unsafe { galivodern_check(case.as_ptr(), case.len(), contents.as_mut_ptr(), contents.len()) as u32 }
}

/// The calls that check the case themselves.
pub fn unchecked(call: &Call, case: &[u8], model: &Done) -> Result<(), String> {
    let done = match call.kind {
        Kind::Check => Done { outcome: Outcome { refusal: check(case), ..Outcome::default() }, ..buffers(call) },
        Kind::Ask => asked(galivodern_ask, call, case),
        Kind::Rows => listed(galivodern_rows, call, case),
    };
    same("a call that checks", &done, model)
}

/// The calls on a checked case; a case that does not pass is not asked.
pub fn checked(call: &Call, case: &[u8], model: &Done) -> Result<(), String> {
    if check(case) != 0 {
        return Ok(());
    }
    let done = match call.kind {
        Kind::Check => return Ok(()),
        Kind::Ask => asked(galivodern_checked_ask, call, case),
        Kind::Rows => listed(galivodern_checked_rows, call, case),
    };
    same("a call on a checked case", &done, model)
}

fn same(who: &str, done: &Done, model: &Done) -> Result<(), String> {
    if done == model {
        return Ok(());
    }
    Err(format!("{who}: {done:?}"))
}

/// The buffers before a call, and no outcome.
pub fn buffers(call: &Call) -> Done {
    Done {
        outcome: Outcome::default(),
        workspace: (0..call.workspace).map(workspace_fill).collect(),
        output: (0..call.output).map(output_fill).collect(),
    }
}

fn asked(ask: Ask, call: &Call, case: &[u8]) -> Done {
    let mut done = buffers(call);
    let mut told = [7; 4];
    // SAFETY: all slices are live and apart; a checked call is made on a case that has passed only.
    let refusal = unsafe {
        ask(
            case.as_ptr(),
            case.len(),
            call.point as usize,
            call.node,
            call.start.as_ptr(),
            call.start.len(),
            call.limit,
            call.room as usize,
            done.workspace.as_mut_ptr(),
            done.workspace.len(),
            told.as_mut_ptr(),
            told.len(),
        )
    };
    done.outcome = outcome(refusal, told);
    done
}

fn listed(list: List, call: &Call, case: &[u8]) -> Done {
    let mut done = buffers(call);
    let mut told = [7; 4];
    // SAFETY: as in `asked`.
    let refusal = unsafe {
        list(
            case.as_ptr(),
            case.len(),
            call.point as usize,
            call.node,
            call.start.as_ptr(),
            call.start.len(),
            call.limit,
            call.room as usize,
            done.workspace.as_mut_ptr(),
            done.workspace.len(),
            call.binders.as_ptr(),
            call.binders.len(),
            done.output.as_mut_ptr(),
            done.output.len(),
            told.as_mut_ptr(),
            told.len(),
        )
    };
    done.outcome = outcome(refusal, told);
    done
}

fn outcome(refusal: u64, [answer, steps, rows, sort]: [u64; 4]) -> Outcome {
    assert!(sort < 2, "a fourth cell of {sort}");
    Outcome { refusal: refusal as u32, answer, steps, rows, number: sort == 1 }
}

/// The Rust crate. Its buffers are its own and always large enough, so calls that are refused for
/// theirs are not put to it, nor starting cells that its bindings cannot say.
pub fn by_crate(call: &Call, case: &[u8], model: &Done) -> Result<(), String> {
    let refusal = model.outcome.refusal;
    let case = match Case::new(case) {
        Ok(case) => case,
        Err(said) if u32::from(said.number()) == refusal => return Ok(()),
        Err(said) => return Err(format!("the crate's check: {said:?}")),
    };
    if call.kind == Kind::Check {
        return if refusal == 0 { Ok(()) } else { Err("the crate's check passes".to_string()) };
    }
    let variables = case.contents().variables;
    let short = call.workspace < 2 * variables * call.room as usize
        || (refusal == 13 && call.binders.iter().all(|&binder| (binder as usize) < variables));
    let Some(start) = bindings(&call.start, variables) else { return Ok(()) };
    if short {
        return Ok(());
    }
    let said = crate_outcome(&case, call, &start);
    if said == (model.outcome, model.output[..filled(call, &model.outcome)].to_vec()) {
        return Ok(());
    }
    Err(format!("the crate: {said:?}"))
}

fn filled(call: &Call, outcome: &Outcome) -> usize {
    if call.kind == Kind::Rows {
        2 * call.binders.len() * outcome.answer as usize
    } else {
        0
    }
}

/// The starting cells as the crate's bindings, if they can be said so.
pub fn bindings(start: &[u64], variables: usize) -> Option<Bindings> {
    if start.len() < 2 * variables || start.len() % 2 != 0 {
        return None;
    }
    let mut bindings = Bindings::new();
    for (variable, cells) in start.chunks(2).enumerate() {
        let named = VariableNo(variable as u16);
        let number = u32::try_from(cells[1]);
        bindings = match (cells[0], number) {
            (0, Ok(0)) if variable < variables => bindings,
            (1, _) => bindings.with(named, Bound::Int(cells[1] as i64)),
            (2, Ok(value)) => bindings.with(named, Bound::Value(value)),
            (3, Ok(string)) => bindings.with(named, Bound::Part(string)),
            _ => return None,
        };
    }
    Some(bindings)
}

/// What the crate says, as an outcome and the output cells filled.
fn crate_outcome(case: &Case, call: &Call, start: &Bindings) -> (Outcome, Vec<u64>) {
    let (point, rule) = (PointNo(call.point as usize), RuleNo(call.node));
    let limits = Limits { steps: call.limit, room: call.room as usize };
    // A number that is no variable stays one that is none.
    let binder = |&binder: &u32| VariableNo(u16::try_from(binder).unwrap_or(u16::MAX));
    let binders: Vec<VariableNo> = call.binders.iter().map(binder).collect();
    let mut cells = Vec::new();
    let said = match call.kind {
        Kind::Rows => case.rows(point, rule, &binders, start, limits).map(|answer| {
            cells.extend(answer.value.iter().flat_map(|row| row.iter().flat_map(bound_cells)));
            answer.map(|rows| (rows.len() as u64, false))
        }),
        _ => case.ask(point, rule, start, limits).map(|answer| answer.map(bits)),
    };
    let outcome = match said {
        Ok(Answered { value: (answer, number), steps, held, .. }) => {
            Outcome { refusal: 0, answer, steps, rows: held as u64, number }
        }
        Err(refused) => {
            let refusal = u32::from(refused.refusal.number());
            Outcome { refusal, answer: 0, steps: refused.steps, rows: refused.held as u64, number: false }
        }
    };
    (outcome, cells)
}

/// An answer's cell, and whether it is a number.
fn bits(answer: Answer) -> (u64, bool) {
    match answer {
        Answer::Verdict(yes) => (u64::from(yes), false),
        Answer::Number(number) => (number as u64, true),
    }
}

fn bound_cells(bound: Option<Bound>) -> [u64; 2] {
    match bound {
        None => [0, 0],
        Some(Bound::Int(number)) => [1, number as u64],
        Some(Bound::Value(value)) => [2, u64::from(value)],
        Some(Bound::Part(string)) => [3, u64::from(string)],
        Some(other) => unreachable!("{other:?} is none of document 01's cells"),
    }
}
