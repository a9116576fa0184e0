//! Calls into an engine that may panic: a panic there is an answer, and not printed.

use std::cell::Cell;
use std::panic::{self, AssertUnwindSafe};

thread_local! {
    static GUARDED: Cell<bool> = const { Cell::new(false) };
}

/// Panics outside guarded calls are printed as ever.
pub fn keep_guarded_panics_quiet() {
    let usual = panic::take_hook();
    panic::set_hook(Box::new(move |info| {
        if !GUARDED.get() {
            usual(info);
        }
    }));
}

/// The answer, or the panic's message.
pub fn guarded<T>(call: impl FnOnce() -> T) -> Result<T, String> {
    GUARDED.set(true);
    let answer = panic::catch_unwind(AssertUnwindSafe(call));
    GUARDED.set(false);
    answer.map_err(|payload| {
        let text = payload.downcast_ref::<String>().map(String::as_str);
        let text = text.or(payload.downcast_ref::<&str>().copied());
        format!("panicked: {}", text.unwrap_or("no message"))
    })
}
