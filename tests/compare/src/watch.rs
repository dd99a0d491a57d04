//! Says which call it was where a page is touched that must not be.

use std::sync::atomic::{AtomicPtr, AtomicUsize, Ordering};

/// The call under way, for the report of a touched page.
pub struct Now {
    name: AtomicPtr<u8>,
    name_length: AtomicUsize,
    message: AtomicPtr<u8>,
    length: AtomicUsize,
}

pub static NOW: Now = Now {
    name: AtomicPtr::new(std::ptr::null_mut()),
    name_length: AtomicUsize::new(0),
    message: AtomicPtr::new(std::ptr::null_mut()),
    length: AtomicUsize::new(0),
};

impl Now {
    pub fn set(&self, name: &'static str, message: &[u8]) {
        self.name.store(name.as_ptr() as *mut u8, Ordering::Relaxed);
        self.name_length.store(name.len(), Ordering::Relaxed);
        self.message.store(message.as_ptr() as *mut u8, Ordering::Relaxed);
        self.length.store(message.len(), Ordering::Relaxed);
    }
}

extern "C" {
    fn signal(number: i32, handler: extern "C" fn(i32)) -> usize;
    fn write(file: i32, bytes: *const u8, length: usize) -> isize;
    fn _exit(status: i32) -> !;
}

/// Says at a touched page (or another fault) which call it was and on which message, then ends with status 1.
pub fn watch_for_faults() {
    const SIGNALS: [i32; 4] = [4, 7, 8, 11];
    for number in SIGNALS {
        // SAFETY: the handler uses only `write` and `_exit` on memory that stays.
        unsafe { signal(number, fault) };
    }
}

extern "C" fn fault(number: i32) {
    let say = |bytes: &[u8]| {
        // SAFETY: a live slice.
        unsafe { write(1, bytes.as_ptr(), bytes.len()) };
    };
    say(b"\nfault (signal ");
    say(&[b'0' + (number / 10) as u8, b'0' + (number % 10) as u8]);
    say(b"): memory outside what was lent was touched, or worse, in ");
    // SAFETY: the pointers were stored from a static text and from pages that live as long as the program.
    unsafe {
        say(std::slice::from_raw_parts(NOW.name.load(Ordering::Relaxed), NOW.name_length.load(Ordering::Relaxed)));
        say(b"\nmessage:\n");
        let message = std::slice::from_raw_parts(NOW.message.load(Ordering::Relaxed), NOW.length.load(Ordering::Relaxed));
        for &byte in message {
            let hex = b"0123456789abcdef";
            match byte {
                b'\n' => say(b"\\n\n"),
                b'\r' => say(b"\\r"),
                b'\\' => say(b"\\\\"),
                32..=126 => say(&[byte]),
                _ => say(&[b'\\', b'x', hex[usize::from(byte >> 4)], hex[usize::from(byte & 15)]]),
            }
        }
        say(b"\n");
        _exit(1)
    }
}
