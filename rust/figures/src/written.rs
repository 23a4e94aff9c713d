//! The writer of request #101 beside the model: the archive's call, with any buffers.

use generate::unsorted::{WriteCall, Written};

extern "C" {
    fn galivodern_write(
        unsorted: *const u8,
        unsorted_len: usize,
        marks: *const u8,
        marks_len: usize,
        room: *mut u8,
        room_len: usize,
        output: *mut u8,
        output_len: usize,
        written: *mut u64,
        written_len: usize,
    ) -> u64;
}

/// Bytes written, or the refusal.
pub fn write(unsorted: &[u8], marks: &[u8], room: &mut [u8], output: &mut [u8]) -> Result<usize, u32> {
    let mut written = [7];
    // SAFETY: all slices are live and apart, and the call takes any bytes.
    let refusal = unsafe {
        galivodern_write(
            unsorted.as_ptr(),
            unsorted.len(),
            marks.as_ptr(),
            marks.len(),
            room.as_mut_ptr(),
            room.len(),
            output.as_mut_ptr(),
            output.len(),
            written.as_mut_ptr(),
            written.len(),
        )
    };
    match (refusal, written) {
        (0, [length]) => Ok(length as usize),
        (refusal, [0]) => Err(refusal as u32),
        (refusal, [length]) => panic!("refused {refusal} and {length} bytes written"),
    }
}

/// The archive's call.
pub fn archive(call: &WriteCall, model: &Written) -> Result<(), String> {
    let mut done = call.buffers();
    done.said = write(&call.unsorted, &call.marks, &mut done.room, &mut done.output);
    if done == *model {
        return Ok(());
    }
    let first = |ours: &[u8], theirs: &[u8]| ours.iter().zip(theirs).position(|(a, b)| a != b);
    let (room, output) = (first(&done.room, &model.room), first(&done.output, &model.output));
    Err(format!("the archive: {:?}, the room differs at {room:?}, the output at {output:?}", done.said))
}
