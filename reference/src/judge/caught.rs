//! Failures of the Rust, caught and numbered.
use crate::error::Error;
use std::{
    cell::{Cell, RefCell},
    panic::{catch_unwind, set_hook, take_hook, AssertUnwindSafe},
};

/// The number shown for an error or a panic that document 01 does not know.
pub const UNEXPECTED: u64 = 999;

const HELPERS: &str = include_str!(concat!(env!("ETHEREUM_CONSENSUS"), "/src/phase0/helpers.rs"));

thread_local! {
    static CATCHING: Cell<bool> = const { Cell::new(false) };
    /// message, file and line of the last caught panic
    static PANIC: RefCell<(String, String, u32)> = const { RefCell::new((String::new(), String::new(), 0)) };
    /// what the last unexpected failure said
    static UNEXPECTED_TEXT: RefCell<String> = const { RefCell::new(String::new()) };
}

/// Panics of the Rust are caught in silence; all others print as ever.
pub fn install_hook() {
    let loud = take_hook();
    set_hook(Box::new(move |info| {
        if !CATCHING.get() {
            return loud(info);
        }
        let payload = info.payload();
        let text = payload.downcast_ref::<&str>().copied().or(payload.downcast_ref::<String>().map(String::as_str));
        let text = text.unwrap_or("no text").to_string();
        let (file, line) = info.location().map_or((String::new(), 0), |l| (l.file().to_string(), l.line()));
        PANIC.replace((text, file, line));
    }));
}

pub fn unexpected_text() -> String {
    UNEXPECTED_TEXT.with_borrow(Clone::clone)
}

pub fn unexpected(text: String) -> u64 {
    UNEXPECTED_TEXT.replace(text);
    UNEXPECTED
}

/// What the Rust answers, or the number of its failure.
pub fn judged<T>(run: impl FnOnce() -> Result<T, Error>) -> Result<T, u64> {
    CATCHING.set(true);
    let result = catch_unwind(AssertUnwindSafe(run));
    CATCHING.set(false);
    match result {
        Ok(Ok(value)) => Ok(value),
        Ok(Err(e)) => Err(match e {
            Error::SlotOutOfRange { .. } => 4,
            Error::Overflow => 5,
            Error::InvalidEpoch { .. } => 1,
            other => unexpected(format!("{other:?}")),
        }),
        Err(_) => Err(PANIC.with_borrow(|(text, file, line)| panic_number(text, file, *line))),
    }
}

fn panic_number(text: &str, file: &str, line: u32) -> u64 {
    let arithmetic =
        ["attempt to add with overflow", "attempt to subtract with overflow", "attempt to multiply with overflow"];
    if !arithmetic.contains(&text) {
        return unexpected(format!("panic: {text} ({file}:{line})"));
    }
    let source = HELPERS.lines().nth(line as usize - 1).unwrap_or("");
    let builds_error = source.contains("lower_bound:") || source.contains("upper_bound:");
    if file.ends_with("phase0/helpers.rs") && builds_error {
        4
    } else {
        5
    }
}

/// Whether this build panics where arithmetic overflows, also inside the library's sums and powers.
pub fn overflow_is_checked() -> bool {
    let top = std::hint::black_box(u64::MAX);
    let caught = [
        judged(|| Ok(top + 1)).err(),
        judged(|| Ok([top, 1].iter().sum::<u64>())).err(),
        judged(|| Ok(u64::from(std::hint::black_box(2u8).pow(std::hint::black_box(8))))).err(),
    ];
    caught == [Some(5); 3]
}
