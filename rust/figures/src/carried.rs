//! Request #106 beside model and Rust: the archive's two calls, and the crate's.

use galivodern::{Case, Limits, PointNo, RuleNo};
use generate::carried::Shown;
use generate::Call;
use model::Outcome;

use crate::archive::{bindings, buffers, check};

/// Cells that the call tells in.
const TOLD: usize = 4;

type Carried = unsafe extern "C" fn(
    file: *const u8,
    file_len: usize,
    point: usize,
    node: u32,
    start: *const u64,
    start_len: usize,
    steps: u64,
    room: usize,
    work: *mut u64,
    work_len: usize,
    list: *mut u64,
    list_len: usize,
    told: *mut u64,
    told_len: usize,
) -> u64;

extern "C" {
    fn galivodern_carried(
        file: *const u8,
        file_len: usize,
        point: usize,
        node: u32,
        start: *const u64,
        start_len: usize,
        steps: u64,
        room: usize,
        work: *mut u64,
        work_len: usize,
        list: *mut u64,
        list_len: usize,
        told: *mut u64,
        told_len: usize,
    ) -> u64;

    fn galivodern_checked_carried(
        file: *const u8,
        file_len: usize,
        point: usize,
        node: u32,
        start: *const u64,
        start_len: usize,
        steps: u64,
        room: usize,
        work: *mut u64,
        work_len: usize,
        list: *mut u64,
        list_len: usize,
        told: *mut u64,
        told_len: usize,
    ) -> u64;
}

/// The call that checks the case itself.
pub fn unchecked(call: &Call, case: &[u8], model: &Shown) -> Result<(), String> {
    same("the call that checks", &asked(galivodern_carried, call, case), model)
}

/// The call on a checked case; a case that does not pass is not asked.
pub fn checked(call: &Call, case: &[u8], model: &Shown) -> Result<(), String> {
    if check(case) != 0 {
        return Ok(());
    }
    same("the call on a checked case", &asked(galivodern_checked_carried, call, case), model)
}

fn same(who: &str, shown: &Shown, model: &Shown) -> Result<(), String> {
    if shown == model {
        return Ok(());
    }
    Err(format!("{who}: {shown:?}"))
}

fn asked(carried: Carried, call: &Call, case: &[u8]) -> Shown {
    let mut done = buffers(call);
    let mut told = [7; TOLD];
    // SAFETY: all slices are live and apart; the checked call is made on a case that has passed only.
    let refusal = unsafe {
        carried(
            case.as_ptr(),
            case.len(),
            call.point as usize,
            call.node,
            call.start.as_ptr(),
            call.start.len(),
            call.limit,
            call.room as usize,
            done.workspace.as_mut_ptr(),
            done.workspace.len(),
            done.output.as_mut_ptr(),
            done.output.len(),
            told.as_mut_ptr(),
            told.len(),
        )
    };
    let [answer, steps, rows, filled] = told;
    done.outcome = Outcome { refusal: refusal as u32, answer, steps, rows, number: false };
    Shown { done, filled }
}

/// The Rust crate, whose list is always long enough: where the model's was not, it must answer.
pub fn by_crate(call: &Call, case: &[u8], model: &Shown) -> Result<(), String> {
    let Ok(case) = Case::new(case) else { return Ok(()) };
    let variables = case.contents().variables;
    let Some(start) = bindings(&call.start, variables) else { return Ok(()) };
    if call.workspace < 2 * variables * call.room as usize {
        return Ok(());
    }
    let (point, rule) = (PointNo(call.point as usize), RuleNo(call.node));
    let limits = Limits { steps: call.limit, room: call.room as usize };
    let outcome = model.done.outcome;
    let same = match case.carried(point, rule, &start, limits) {
        Ok(carried) if outcome.refusal == 15 => carried.points.len() > call.output,
        Ok(carried) => {
            let listed: Vec<u64> = carried.points.iter().map(|point| point.0 as u64).collect();
            (outcome.refusal, outcome.answer) == (0, u64::from(carried.verdict))
                && listed == model.done.output[..model.filled as usize]
        }
        Err(refused) => {
            let said = (u32::from(refused.refusal.number()), refused.steps, refused.held as u64);
            said == (outcome.refusal, outcome.steps, outcome.rows)
        }
    };
    if same {
        return Ok(());
    }
    Err(format!("the crate: {:?}", case.carried(point, rule, &start, limits)))
}
