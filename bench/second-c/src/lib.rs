//! The second implementation's screen and its end of a call as C functions, for the benchmark.

use second::Table;
use std::slice::{from_raw_parts, from_raw_parts_mut};

/// The length of the outgoing message, 0 where it is refused; the reason goes to `reason`.
///
/// # Safety
/// `message` points to `length` bytes, `out` to `room` bytes of its own, `calls` to a table and `reason` to a number of their own.
#[no_mangle]
pub unsafe extern "C" fn second_screen(
    message: *const u8,
    length: usize,
    side: u64,
    calls: *mut Table,
    out: *mut u8,
    room: usize,
    reason: *mut u64,
) -> usize {
    let numbers = second::screen(from_raw_parts(message, length), side, &mut *calls, from_raw_parts_mut(out, room)).numbers();
    *reason = numbers[0];
    numbers[4] as usize
}

/// 0 where the call was held, else 19.
///
/// # Safety
/// `calls` points to a table of its own, `call_id` and `tag` to as many bytes as their lengths say.
#[no_mangle]
pub unsafe extern "C" fn second_end_call(calls: *mut Table, call_id: *const u8, id_length: usize, tag: *const u8, tag_length: usize) -> u64 {
    second::end_call(&mut *calls, from_raw_parts(call_id, id_length), from_raw_parts(tag, tag_length))
}
