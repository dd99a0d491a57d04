//! The functions of libmishkolar_isup.a, the box for the old exchange (CR 7), over slices.

use crate::library::BEFORE;

mod c {
    extern "C" {
        pub fn mishkolar_isup_parameter(
            message: *const u8, len: usize, code: *const u8, code_len: usize, home: u64, parameter: *mut u8,
            reason: *mut u64, reply: *mut u64, detail: *mut u64, missing: *mut u64,
        ) -> usize;
        pub fn mishkolar_isup_caller(
            bytes: *const u8, len: usize, code: *const u8, code_len: usize, number: *mut u8, id: *mut u64, refusal: *mut u64,
        ) -> usize;
        pub fn mishkolar_isup_status(cause: u64, refusal: *mut u64) -> u64;
    }
}

/// How many bytes are lent for a parameter and for a number.
pub const PARAMETER: usize = 10;
pub const NUMBER: usize = 16;

/// Reason, reply, detail, missing count and length.
pub fn parameter(message: &[u8], code: &[u8], home: u64, parameter: &mut [u8]) -> [u64; 5] {
    assert_eq!(parameter.len(), PARAMETER);
    let mut n = [BEFORE; 4];
    let [reason, reply, detail, missing] = &mut n;
    let (lent, len) = (message.as_ptr(), message.len());
    // SAFETY: pointers and lengths of live slices that do not overlap, and room for a parameter.
    let length = unsafe {
        c::mishkolar_isup_parameter(lent, len, code.as_ptr(), code.len(), home, parameter.as_mut_ptr(), reason, reply, detail, missing)
    };
    [n[0], n[1], n[2], n[3], length as u64]
}

/// Refusal, id and length.
pub fn caller(bytes: &[u8], code: &[u8], number: &mut [u8]) -> [u64; 3] {
    assert_eq!(number.len(), NUMBER);
    let (mut id, mut refusal) = (BEFORE, BEFORE);
    // SAFETY: as above, and room for a number.
    let length = unsafe {
        c::mishkolar_isup_caller(bytes.as_ptr(), bytes.len(), code.as_ptr(), code.len(), number.as_mut_ptr(), &mut id, &mut refusal)
    };
    [refusal, id, length as u64]
}

/// Status and refusal; the refusal stood as given before.
pub fn status(cause: u64, before: u64) -> (u64, u64) {
    let mut refusal = before;
    // SAFETY: one number is written.
    let status = unsafe { c::mishkolar_isup_status(cause, &mut refusal) };
    (status, refusal)
}

/// Null pointers where the lengths are 0.
pub fn with_null_pointers() {
    let none = std::ptr::null();
    let (mut parameter, mut number) = ([7; PARAMETER], [7; NUMBER]);
    let mut n = [BEFORE; 4];
    let [reason, reply, detail, missing] = &mut n;
    // SAFETY: a pointer may be null where its length is 0; the others are live.
    unsafe {
        let length = c::mishkolar_isup_parameter(none, 0, none, 0, 1, parameter.as_mut_ptr(), reason, reply, detail, missing);
        assert_eq!((length, n, parameter), (0, [3, 0, 0, 0], [7; PARAMETER]));
        let (mut id, mut refusal) = (BEFORE, BEFORE);
        let length = c::mishkolar_isup_caller(none, 0, none, 0, number.as_mut_ptr(), &mut id, &mut refusal);
        assert_eq!((length, id, refusal, number), (0, 0, 41, [7; NUMBER]));
        let length = c::mishkolar_isup_caller(none, 0, b"33".as_ptr(), 2, number.as_mut_ptr(), &mut id, &mut refusal);
        assert_eq!((length, id, refusal, number), (0, 0, 43, [7; NUMBER]));
    }
}
