//! Stand-in for the crate log: writes nothing, counts the calls of `debug!`, and keeps the lines of an alignment.
//!
//! Among the compiled files only `Gauss::left_solved` calls `debug!`, once for each ridge that does
//! not solve, so the count says which ridge solved inside a fit. Only `global_alignment` calls `info!` with arguments
//! named file, m and b, once for each file, with the slope and the intercept that it narrows next.

use std::cell::{Cell, RefCell};

thread_local! {
    static DEBUGS: Cell<usize> = const { Cell::new(0) };
    static LINES: RefCell<Vec<[f64; 2]>> = const { RefCell::new(vec![]) };
}

/// Counts one call of `debug!`.
pub fn count_debug() {
    DEBUGS.with(|n| n.set(n.get() + 1));
}

/// The calls of `debug!` on this thread since the last `take_debugs`.
pub fn take_debugs() -> usize {
    DEBUGS.with(|n| n.replace(0))
}

/// Keeps a line's slope and intercept.
pub fn keep_line(slope: f64, intercept: f64) {
    LINES.with(|lines| lines.borrow_mut().push([slope, intercept]));
}

/// The lines kept on this thread since the last `take_lines`, in order.
pub fn take_lines() -> Vec<[f64; 2]> {
    LINES.with(|lines| lines.take())
}

/// Counts the call; the message is type-checked and dropped.
#[macro_export]
macro_rules! debug {
    ($($arg:tt)*) => {{
        let _ = format_args!($($arg)*);
        $crate::count_debug();
    }};
}

/// Drops the message, and keeps the slope m and the intercept b of one about a file.
#[macro_export]
macro_rules! info {
    ($message:literal, file = $file:expr, m = $m:expr, b = $b:expr) => {{
        let _ = format_args!($message, file = $file, m = $m, b = $b);
        $crate::keep_line($m, $b);
    }};
    ($($arg:tt)*) => {{
        let _ = format_args!($($arg)*);
    }};
}

/// Drops the message.
#[macro_export]
macro_rules! warn {
    ($($arg:tt)*) => {{
        let _ = format_args!($($arg)*);
    }};
}
