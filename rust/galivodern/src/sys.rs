//! The C calls of libcapi.a that this crate uses (include/galivodern.h), and all its `unsafe` code.

use crate::limits::Limits;

/// Cells that the check fills: V, and how many strings, values, points and nodes there are.
const CONTENTS_CELLS: usize = 5;
/// Cells that a question is told in: answer, steps, rows held, and the call's own fourth.
const TOLD_CELLS: usize = 4;
/// Cells that an import is told in: bytes, marks, and the two places of a fault.
const IMPORTED_CELLS: usize = 4;
/// The most bytes that a case has.
const MOST_BYTES: usize = 4_194_304;
/// No byte of a log makes more bytes of its trace: an array's item of a digit and a comma makes a value and a member.
const TRACE_FOR_A_BYTE: usize = 12;
/// Of the trace: its contents.
const CONTENTS_BYTES: usize = 64;
/// The longest text that a case is exported as.
const MOST_TEXT: usize = 1 << 30;
/// The refusal of an output that is too short.
const OUTPUT_TOO_SHORT: u64 = 14;

extern "C" {
    fn galivodern_check(file: *const u8, file_len: usize, contents: *mut u64, contents_len: usize) -> u64;

    fn galivodern_checked_ask(
        file: *const u8,
        file_len: usize,
        point: usize,
        node: u32,
        start: *const u64,
        start_len: usize,
        steps: u64,
        room: usize,
        work: *mut u64,
        work_len: usize,
        told: *mut u64,
        told_len: usize,
    ) -> u64;

    fn galivodern_checked_rows(
        file: *const u8,
        file_len: usize,
        point: usize,
        node: u32,
        start: *const u64,
        start_len: usize,
        steps: u64,
        room: usize,
        work: *mut u64,
        work_len: usize,
        binders: *const u32,
        binders_len: usize,
        output: *mut u64,
        output_len: usize,
        told: *mut u64,
        told_len: usize,
    ) -> u64;

    fn galivodern_checked_carried(
        file: *const u8,
        file_len: usize,
        point: usize,
        node: u32,
        start: *const u64,
        start_len: usize,
        steps: u64,
        room: usize,
        work: *mut u64,
        work_len: usize,
        list: *mut u64,
        list_len: usize,
        told: *mut u64,
        told_len: usize,
    ) -> u64;

    fn galivodern_write(
        unsorted: *const u8,
        unsorted_len: usize,
        marks: *const u8,
        marks_len: usize,
        room: *mut u8,
        room_len: usize,
        output: *mut u8,
        output_len: usize,
        written: *mut u64,
        written_len: usize,
    ) -> u64;

    fn galivodern_import(
        text: *const u8,
        text_len: usize,
        work: *mut u64,
        work_len: usize,
        trace: *mut u8,
        trace_len: usize,
        marks: *mut u8,
        marks_len: usize,
        told: *mut u64,
        told_len: usize,
    ) -> u64;

    fn galivodern_export(
        file: *const u8,
        file_len: usize,
        output: *mut u8,
        output_len: usize,
        written: *mut u64,
        written_len: usize,
    ) -> u64;

    fn galivodern_window(span: i64, from: i64, to: i64) -> u64;

    fn galivodern_difference(from: i64, to: i64) -> i64;
}

/// The bytes of a case that has passed the check. Only `new` makes one, and nothing changes its
/// bytes: that is what makes the checked calls sound.
#[derive(Clone)]
pub(crate) struct Checked {
    bytes: Vec<u8>,
    contents: [u64; CONTENTS_CELLS],
}

/// What is asked of a checked case.
#[derive(Clone, Copy)]
pub(crate) struct Question<'a> {
    pub point: usize,
    pub node: u32,
    pub start: &'a [u64],
    pub limits: Limits,
}

/// What a call returned, and what it told.
#[derive(Clone, Copy)]
pub(crate) struct Told {
    pub returned: u64,
    pub answer: u64,
    pub steps: u64,
    pub held: u64,
    /// Of `ask`: 1 where the answer is a number.
    pub fourth: u64,
}

impl Told {
    fn new(returned: u64, told: [u64; TOLD_CELLS]) -> Told {
        let [answer, steps, held, fourth] = told;
        Told { returned, answer, steps, held, fourth }
    }
}

impl Checked {
    /// The refusal's number where the check does not pass.
    pub fn new(bytes: Vec<u8>) -> Result<Checked, u64> {
        let mut contents = [0; CONTENTS_CELLS];
        // SAFETY: both slices are live and apart from each other, and the call takes any bytes.
        let returned = unsafe { galivodern_check(bytes.as_ptr(), bytes.len(), contents.as_mut_ptr(), contents.len()) };
        if returned == 0 {
            Ok(Checked { bytes, contents })
        } else {
            Err(returned)
        }
    }

    pub fn bytes(&self) -> &[u8] {
        &self.bytes
    }

    pub fn into_bytes(self) -> Vec<u8> {
        self.bytes
    }

    /// What the check filled in.
    pub fn contents(&self) -> [u64; CONTENTS_CELLS] {
        self.contents
    }

    pub fn ask(&self, question: Question, work: &mut [u64]) -> Told {
        let Question { point, node, start, limits } = question;
        let mut told = [0; TOLD_CELLS];
        // SAFETY: the bytes have passed the check and are unchanged since (see `Checked`); every slice
        // is live for the call, and those that are written to are borrowed for it alone.
        let returned = unsafe {
            galivodern_checked_ask(
                self.bytes.as_ptr(),
                self.bytes.len(),
                point,
                node,
                start.as_ptr(),
                start.len(),
                limits.steps,
                limits.room,
                work.as_mut_ptr(),
                work.len(),
                told.as_mut_ptr(),
                told.len(),
            )
        };
        Told::new(returned, told)
    }

    pub fn rows(&self, question: Question, binders: &[u32], work: &mut [u64], output: &mut [u64]) -> Told {
        let Question { point, node, start, limits } = question;
        let mut told = [0; TOLD_CELLS];
        // SAFETY: as in `ask`.
        let returned = unsafe {
            galivodern_checked_rows(
                self.bytes.as_ptr(),
                self.bytes.len(),
                point,
                node,
                start.as_ptr(),
                start.len(),
                limits.steps,
                limits.room,
                work.as_mut_ptr(),
                work.len(),
                binders.as_ptr(),
                binders.len(),
                output.as_mut_ptr(),
                output.len(),
                told.as_mut_ptr(),
                told.len(),
            )
        };
        Told::new(returned, told)
    }

    /// The fourth cell tells how many cells of the list were filled.
    pub fn carried(&self, question: Question, work: &mut [u64], list: &mut [u64]) -> Told {
        let Question { point, node, start, limits } = question;
        let mut told = [0; TOLD_CELLS];
        // SAFETY: as in `ask`.
        let returned = unsafe {
            galivodern_checked_carried(
                self.bytes.as_ptr(),
                self.bytes.len(),
                point,
                node,
                start.as_ptr(),
                start.len(),
                limits.steps,
                limits.room,
                work.as_mut_ptr(),
                work.len(),
                list.as_mut_ptr(),
                list.len(),
                told.as_mut_ptr(),
                told.len(),
            )
        };
        Told::new(returned, told)
    }
}

/// The case of an unsorted one, or the refusal's number.
pub(crate) fn write(unsorted: &[u8], marks: &[u8]) -> Result<Vec<u8>, u64> {
    // Zeros that are never touched take no memory: only what the case has is used of these.
    let (mut room, mut output) = (vec![0; MOST_BYTES], vec![0; MOST_BYTES]);
    let mut written = [0];
    // SAFETY: all slices are live and apart from each other, and the call takes any bytes.
    let returned = unsafe {
        galivodern_write(
            unsorted.as_ptr(),
            unsorted.len(),
            marks.as_ptr(),
            marks.len(),
            room.as_mut_ptr(),
            room.len(),
            output.as_mut_ptr(),
            output.len(),
            written.as_mut_ptr(),
            written.len(),
        )
    };
    if returned != 0 {
        return Err(returned);
    }
    output.truncate(written[0] as usize);
    output.shrink_to_fit();
    Ok(output)
}

/// What an import wrote.
pub(crate) struct Trace {
    pub unsorted: Vec<u8>,
    pub marks: Vec<u8>,
}

/// Why a log was refused: the number, the place, and where the first of two equal names stands.
pub(crate) struct Faulty {
    pub returned: u64,
    pub at: usize,
    pub first: usize,
}

/// The unsorted case of a JSON log, and its marks.
pub(crate) fn import(text: &[u8]) -> Result<Trace, Faulty> {
    // As much as any log of this length may need; what is never touched takes no memory.
    let mut work = vec![0u64; text.len().div_ceil(4)];
    let mut unsorted = vec![0u8; TRACE_FOR_A_BYTE.saturating_mul(text.len()).saturating_add(CONTENTS_BYTES)];
    let mut marks = vec![0u8; text.len()];
    let mut told = [0; IMPORTED_CELLS];
    // SAFETY: all slices are live and apart from each other, and the call takes any bytes.
    let returned = unsafe {
        galivodern_import(
            text.as_ptr(),
            text.len(),
            work.as_mut_ptr(),
            work.len(),
            unsorted.as_mut_ptr(),
            unsorted.len(),
            marks.as_mut_ptr(),
            marks.len(),
            told.as_mut_ptr(),
            told.len(),
        )
    };
    let [bytes, marked, at, first] = told.map(|cell| cell as usize);
    if returned != 0 {
        return Err(Faulty { returned, at, first });
    }
    unsorted.truncate(bytes);
    unsorted.shrink_to_fit();
    marks.truncate(marked);
    Ok(Trace { unsorted, marks })
}

/// A case's points as the lines of a JSON log, or the refusal's number.
pub(crate) fn export(file: &[u8]) -> Result<Vec<u8>, u64> {
    // Values that many points share are written for each, so a text may be much longer than its case.
    let mut lent = (16 * file.len()).min(MOST_TEXT);
    loop {
        let mut output = vec![0; lent];
        let mut written = [0];
        // SAFETY: all slices are live and apart from each other, and the call takes any bytes.
        let returned = unsafe {
            galivodern_export(
                file.as_ptr(),
                file.len(),
                output.as_mut_ptr(),
                output.len(),
                written.as_mut_ptr(),
                written.len(),
            )
        };
        match returned {
            0 => {
                output.truncate(written[0] as usize);
                output.shrink_to_fit();
                return Ok(output);
            }
            OUTPUT_TOO_SHORT if lent < MOST_TEXT => lent = (8 * lent).min(MOST_TEXT),
            _ => return Err(returned),
        }
    }
}

pub(crate) fn window(span: i64, from: i64, to: i64) -> u64 {
    // SAFETY: the call takes any numbers and touches no memory of ours.
    unsafe { galivodern_window(span, from, to) }
}

pub(crate) fn difference(from: i64, to: i64) -> i64 {
    // SAFETY: as in `window`.
    unsafe { galivodern_difference(from, to) }
}
