//! Catches panics of the crate and keeps their messages.

use std::cell::RefCell;
use std::panic::{catch_unwind, set_hook, AssertUnwindSafe};

thread_local! {
    static MESSAGE: RefCell<String> = const { RefCell::new(String::new()) };
}

/// Keeps panics off the error output; their messages are kept instead.
pub fn silence() {
    set_hook(Box::new(|info| {
        let payload = info.payload();
        let text = payload.downcast_ref::<&str>().map(|text| text.to_string());
        let text = text.or_else(|| payload.downcast_ref::<String>().cloned()).unwrap_or_default();
        MESSAGE.with_borrow_mut(|message| *message = text.split_whitespace().collect::<Vec<_>>().join(" "));
    }));
}

/// What the function gives, or the message of its panic on one line.
pub fn guarded<T>(function: impl FnOnce() -> T) -> Result<T, String> {
    catch_unwind(AssertUnwindSafe(function)).map_err(|_| MESSAGE.with_borrow(String::clone))
}
