//! The three calls with every buffer: refusals 7 to 13, workspace and output.

use crate::check::check;
use crate::file::{File, Table};
use crate::variant::Variant;
use crate::walk::{bound_in, Binding, Env, Refused, Row, Walk};
use crate::{MOST_ROOM, MOST_STEPS};

/// What a call answers: refusal 0 and an answer, or a refusal and answer 0.
#[derive(Clone, Copy, Debug, Default, PartialEq, Eq)]
pub struct Outcome {
    pub refusal: u32,
    /// 1 or 0 for a verdict, the bits of a number, the count of rows.
    pub answer: u64,
    pub steps: u64,
    /// The greatest rows held.
    pub rows: u64,
    /// Whether the answer is an aggregate's number.
    pub number: bool,
}

/// What both questions have in common.
#[derive(Clone, Copy, Debug)]
pub struct Question<'a> {
    pub case: &'a [u8],
    pub point: u32,
    pub node: u32,
    pub start: &'a [u64],
    pub limit: u64,
    pub room: u64,
}

#[derive(Clone, Copy, Debug)]
pub struct Model {
    pub variant: Variant,
}

impl Model {
    pub fn document() -> Model {
        Model { variant: Variant::Document }
    }

    /// Refusals 1 to 6, or 0.
    pub fn check(self, case: &[u8]) -> u32 {
        check(self.variant, case)
    }

    /// Of a condition yes or no, of an aggregate its number.
    pub fn ask(self, question: &Question, workspace: &mut [u64]) -> Outcome {
        let answered = |kind: u32| is_condition(kind) || is_aggregate(kind);
        self.call(question, answered, workspace, |walk, env| {
            if is_aggregate(walk.file.node(question.node)[0]) {
                return Ok(Said::Number(walk.number(question.node, env, walk.asked)?));
            }
            Ok(Said::Answer(walk.verdict(question.node, env, walk.asked)? as u64))
        })
    }

    /// Rows of a condition, projected on the binders: two cells a binder go to the output.
    pub fn rows(self, question: &Question, binders: &[u32], workspace: &mut [u64], output: &mut [u64]) -> Outcome {
        self.call(question, is_condition, workspace, |walk, env| {
            let below = binders.iter().all(|&binder| binder < walk.file.variables());
            if !below && self.variant == Variant::BindersFirst {
                return Ok(Said::Refusal(13));
            }
            let rows = walk.rows(question.node, env, walk.asked)?;
            if !below {
                return Ok(Said::Refusal(13));
            }
            let rows = walk.projected(rows, binders);
            let cells: Vec<u64> = rows.iter().flat_map(|row| cells_of(row, binders)).collect();
            if output.len() < cells.len() {
                if self.variant == Variant::OutputCut {
                    let length = output.len();
                    output.copy_from_slice(&cells[..length]);
                }
                return Ok(Said::Refusal(13));
            }
            output[..cells.len()].copy_from_slice(&cells);
            Ok(Said::Answer(rows.len() as u64))
        })
    }

    /// The refusals in order, then the walk, then the clearing of the workspace.
    pub(crate) fn call(
        self,
        question: &Question,
        answered: impl Fn(u32) -> bool,
        workspace: &mut [u64],
        walked: impl FnOnce(&mut Walk, &Env) -> Result<Said, Refused>,
    ) -> Outcome {
        let refusal = self.refusal(question, answered, workspace.len());
        if refusal != 0 {
            return Outcome { refusal, ..Outcome::default() };
        }
        let file = File { bytes: question.case };
        let mut walk = Walk {
            file,
            variant: self.variant,
            asked: question.point as usize,
            limit: question.limit,
            room: question.room,
            steps: 0,
            held: 0,
            most: 0,
        };
        let env: Env = question.start.chunks(2).map(binding).collect();
        let said = walked(&mut walk, &env);
        if self.variant != Variant::WorkspaceLeft {
            workspace[..2 * file.variables() as usize * question.room as usize].fill(0);
        }
        let (refusal, answer, number) = match said {
            Ok(Said::Answer(answer)) => (0, answer, false),
            Ok(Said::Number(number)) => (0, number as u64, true),
            Ok(Said::Refusal(refusal)) | Err(Refused(refusal)) => (refusal, 0, false),
        };
        Outcome { refusal, answer, steps: walk.steps, rows: walk.most, number }
    }

    /// Refusals 1 to 10, the lowest given, or 0.
    fn refusal(self, question: &Question, answered: impl Fn(u32) -> bool, workspace: usize) -> u32 {
        let refusal = self.check(question.case);
        if refusal != 0 {
            return refusal;
        }
        let file = File { bytes: question.case };
        if !file.has(Table::Points, question.point) {
            return 7;
        }
        if !file.has(Table::Nodes, question.node) || !answered(file.node(question.node)[0]) {
            return 8;
        }
        let variables = file.variables() as usize;
        let well_formed = |cells: &[u64]| self.well_formed(file, cells[0], cells[1]);
        if question.start.len() != 2 * variables || !question.start.chunks(2).all(well_formed) {
            return 9;
        }
        let limit_allowed =
            question.limit < MOST_STEPS || (question.limit == MOST_STEPS && self.variant != Variant::MostStepsRefused);
        let room_allowed = question.room <= MOST_ROOM;
        if !limit_allowed || !room_allowed || workspace < 2 * variables * question.room as usize {
            return 10;
        }
        0
    }

    /// Whether two cells are a starting binding.
    fn well_formed(self, file: File, tag: u64, bits: u64) -> bool {
        match tag {
            0 => bits == 0,
            1 => true,
            2 => {
                bits < file.count(Table::Values) as u64
                    && (file.value(bits as u32)[0] != 2 || self.variant == Variant::StartIntByNumber)
            }
            3 => bits < file.count(Table::Strings) as u64,
            _ => false,
        }
    }
}

pub(crate) enum Said {
    Answer(u64),
    Number(i64),
    Refusal(u32),
}

fn is_condition(kind: u32) -> bool {
    (1..=10).contains(&kind)
}

fn is_aggregate(kind: u32) -> bool {
    (30..=31).contains(&kind)
}

fn binding(cells: &[u64]) -> Option<Binding> {
    match cells[0] {
        1 => Some(Binding::Int(cells[1] as i64)),
        2 => Some(Binding::Value(cells[1] as u32)),
        3 => Some(Binding::Part(cells[1] as u32)),
        _ => None,
    }
}

/// Two cells a binder, 0,0 where absent.
fn cells_of(row: &Row, binders: &[u32]) -> Vec<u64> {
    binders
        .iter()
        .flat_map(|&binder| match bound_in(row, binder) {
            None => [0, 0],
            Some(Binding::Int(n)) => [1, n as u64],
            Some(Binding::Value(value)) => [2, value as u64],
            Some(Binding::Part(string)) => [3, string as u64],
        })
        .collect()
}
