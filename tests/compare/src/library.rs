//! The functions of include/mishkolar.h, over slices.

use second::calls::TABLE;
use second::causes::Answer;

mod c {
    extern "C" {
        pub fn mishkolar_screen(
            message: *const u8, len: usize, side: u64, calls: *mut u8, out: *mut u8, room: usize,
            reason: *mut u64, reply: *mut u64, detail: *mut u64, missing: *mut u64,
        ) -> usize;
        pub fn mishkolar_end_call(calls: *mut u8, call_id: *const u8, id_len: usize, tag: *const u8, tag_len: usize) -> u64;
        pub fn mishkolar_count(message: *const u8, len: usize, field: u64) -> usize;
        pub fn mishkolar_reading(message: *const u8, len: usize, field: u64, place: u64, start: *mut usize) -> usize;
        pub fn mishkolar_calling_number(
            message: *const u8, len: usize, trunk: *const u8, trunk_len: usize, start: *mut usize, from_trunk: *mut u64,
        ) -> usize;
        pub fn mishkolar_take_record(
            counts: *mut u32, read: *mut u64, end: *mut u64, calls: *mut u8, side: u64, message: *const u8, len: usize,
        );
        pub fn mishkolar_replay(text: *const u8, len: usize, counts: *mut u32, read: *mut u64, end: *mut u64);
        pub fn mishkolar_report(counts: *const u32, read: u64, end: u64, out: *mut u8, room: usize) -> usize;
        pub fn mishkolar_status_of_cause(cause: u64, row: *mut u64, refusal: *mut u64) -> u64;
        pub fn mishkolar_cause_of_status(status: u64, refusal: *mut u64) -> u64;
    }
}

/// What stands in every answer before the call, so that one left unwritten shows.
pub const BEFORE: u64 = 0xDEAD_BEEF_DEAD_BEEF;

/// Reason, reply, detail, missing count and length.
pub fn screen(message: &[u8], side: u64, calls: &mut [u8], out: &mut [u8]) -> [u64; 5] {
    assert_eq!(calls.len(), TABLE);
    let mut n = [BEFORE; 4];
    let [reason, reply, detail, missing] = &mut n;
    let (lent, len, calls, room) = (message.as_ptr(), message.len(), calls.as_mut_ptr(), out.len());
    // SAFETY: pointers and lengths of live slices that do not overlap, and a whole table.
    let length = unsafe { c::mishkolar_screen(lent, len, side, calls, out.as_mut_ptr(), room, reason, reply, detail, missing) };
    [n[0], n[1], n[2], n[3], length as u64]
}

/// 0, or 19 where the pair was not held.
pub fn end_call(calls: &mut [u8], call_id: &[u8], tag: &[u8]) -> u64 {
    assert_eq!(calls.len(), TABLE);
    // SAFETY: as above.
    unsafe { c::mishkolar_end_call(calls.as_mut_ptr(), call_id.as_ptr(), call_id.len(), tag.as_ptr(), tag.len()) }
}

pub fn count(message: &[u8], field: u64) -> usize {
    // SAFETY: as above.
    unsafe { c::mishkolar_count(message.as_ptr(), message.len(), field) }
}

/// Start and length.
pub fn reading(message: &[u8], field: u64, place: u64) -> (usize, usize) {
    let mut start = BEFORE as usize;
    // SAFETY: as above.
    let length = unsafe { c::mishkolar_reading(message.as_ptr(), message.len(), field, place, &mut start) };
    (start, length)
}

/// From the trunk, start and length.
pub fn calling_number(message: &[u8], trunk: &[u8]) -> (u64, usize, usize) {
    let (mut start, mut from_trunk) = (BEFORE as usize, BEFORE);
    // SAFETY: as above.
    let length = unsafe {
        c::mishkolar_calling_number(message.as_ptr(), message.len(), trunk.as_ptr(), trunk.len(), &mut start, &mut from_trunk)
    };
    (from_trunk, start, length)
}

/// How many numbers `take_record`, `replay` and `report` are lent as counts.
pub const COUNTS: usize = 60;

/// The records read and the end, which stood as given before.
pub fn take_record(counts: &mut [u32], (mut read, mut end): (u64, u64), calls: &mut [u8], side: u64, message: &[u8]) -> (u64, u64) {
    assert_eq!((counts.len(), calls.len()), (COUNTS, TABLE));
    let (counts, calls) = (counts.as_mut_ptr(), calls.as_mut_ptr());
    // SAFETY: as above, so many counts and a whole table.
    unsafe { c::mishkolar_take_record(counts, &mut read, &mut end, calls, side, message.as_ptr(), message.len()) };
    (read, end)
}

/// The records read and the end.
pub fn replay(text: &[u8], counts: &mut [u32]) -> (u64, u64) {
    assert_eq!(counts.len(), COUNTS);
    let (mut read, mut end) = (BEFORE, BEFORE);
    // SAFETY: as above, and so many counts.
    unsafe { c::mishkolar_replay(text.as_ptr(), text.len(), counts.as_mut_ptr(), &mut read, &mut end) };
    (read, end)
}

/// The length.
pub fn report(counts: &[u32], read: u64, end: u64, out: &mut [u8]) -> usize {
    assert_eq!(counts.len(), COUNTS);
    // SAFETY: as above, and so many counts.
    unsafe { c::mishkolar_report(counts.as_ptr(), read, end, out.as_mut_ptr(), out.len()) }
}

/// Status, row and refusal; row and refusal stood as given before.
pub fn status_of_cause(cause: u64, before: [u64; 2]) -> Answer {
    let [mut row, mut refusal] = before;
    // SAFETY: two numbers are written.
    let status = unsafe { c::mishkolar_status_of_cause(cause, &mut row, &mut refusal) };
    Answer { status, row, refusal }
}

/// Cause and refusal; the refusal stood as given before.
pub fn cause_of_status(status: u64, before: u64) -> (u64, u64) {
    let mut refusal = before;
    // SAFETY: one number is written.
    let cause = unsafe { c::mishkolar_cause_of_status(status, &mut refusal) };
    (cause, refusal)
}

/// Null pointers where the lengths are 0, which the header allows.
pub fn with_null_pointers() -> [u64; 5] {
    let mut n = [BEFORE; 4];
    let [reason, reply, detail, missing] = &mut n;
    // SAFETY: the header allows null where the length is 0.
    let length = unsafe {
        let (none, nowhere) = (std::ptr::null(), std::ptr::null_mut());
        assert_eq!(c::mishkolar_count(none, 0, 1), 0);
        let mut start = 1;
        assert_eq!((c::mishkolar_reading(none, 0, 1, 1, &mut start), start), (0, 0));
        let mut from_trunk = 1;
        start = 1;
        assert_eq!((c::mishkolar_calling_number(none, 0, none, 0, &mut start, &mut from_trunk), start, from_trunk), (0, 0, 0));
        let (mut counts, mut read, mut end) = ([7; COUNTS], BEFORE, BEFORE);
        c::mishkolar_replay(none, 0, counts.as_mut_ptr(), &mut read, &mut end);
        assert_eq!((counts, read, end), ([0; COUNTS], 0, 0));
        let mut calls = second::none_held();
        let table = calls.as_mut_ptr();
        c::mishkolar_take_record(counts.as_mut_ptr(), &mut read, &mut end, table, 1, none, 0);
        assert_eq!((counts[43], counts.iter().sum(), read, end), (1, 1, 1, 0));
        let texts = [(none, 0, none, 0), (b"a".as_ptr(), 1, none, 0), (none, 0, b"a".as_ptr(), 1)];
        assert!(texts.into_iter().all(|(call_id, id_len, tag, tag_len)| c::mishkolar_end_call(table, call_id, id_len, tag, tag_len) == 19));
        assert_eq!(c::mishkolar_report(counts.as_ptr(), read, end, nowhere, 0), 0);
        let length = c::mishkolar_screen(none, 0, 1, table, nowhere, 0, reason, reply, detail, missing);
        assert_eq!(calls, second::none_held());
        length
    };
    [n[0], n[1], n[2], n[3], length as u64]
}
