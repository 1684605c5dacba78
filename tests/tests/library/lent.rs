//! Slices as they are lent to the library: each lies before or behind a guard page.

use std::cell::RefCell;
use std::fmt::{self, Write as _};
use std::io::Write as _;
use std::sync::Once;

use crate::guarded::Guarded;

/// The bytes just before the page that follows, or just after the page before.
pub fn put<'a>(room: &'a mut Guarded, bytes: &[u8], end: bool) -> &'a mut [u8] {
    if end {
        room.at_end(bytes)
    } else {
        room.at_start(bytes)
    }
}

pub fn same_bytes(got: &[u8], want: &[u8], what: &str, case: fmt::Arguments) {
    // As a whole first, which is quicker.
    if got[..want.len()] != *want {
        let k = (0..want.len()).find(|&k| got[k] != want[k]).expect("a byte differs");
        panic!("{case}: byte {k} of the {what} is {}, not {}", got[k], want[k]);
    }
}

// ---- A call that touches a guard page ----

const SEGMENTATION_FAULT: i32 = 11;
const DEFAULT: usize = 0;

extern "C" {
    fn signal(number: i32, handler: usize) -> usize;
    fn raise(number: i32) -> i32;
}

thread_local! {
    /// The case whose call this thread makes.
    static CASE: RefCell<String> = const { RefCell::new(String::new()) };
}

extern "C" fn name_case(number: i32) {
    CASE.with_borrow(|case| {
        let test = std::thread::current();
        let test = test.name().unwrap_or("a test");
        // The program ends anyway.
        let _ = writeln!(std::io::stderr(), "{test}: {case}: a guard page was touched");
    });
    unsafe {
        signal(number, DEFAULT);
        raise(number);
    }
}

/// To be told before a call: a touched guard page ends the test program, and then only this names the seed.
pub fn about_to_call(case: fmt::Arguments) {
    static SET: Once = Once::new();
    SET.call_once(|| unsafe {
        signal(SEGMENTATION_FAULT, name_case as *const () as usize);
    });
    CASE.with_borrow_mut(|name| {
        name.clear();
        write!(name, "{case}").expect("a string takes all");
    });
}
