//! Where the original stops, it has no answer.

use std::any::Any;
use std::cell::{Cell, RefCell};
use std::panic::{self, AssertUnwindSafe, PanicHookInfo};
use std::path::Path;
use std::sync::Once;

thread_local! {
    static IN_ORIGINAL: Cell<bool> = const { Cell::new(false) };
    static WHY: RefCell<String> = const { RefCell::new(String::new()) };
}

/// What the original answers, or nothing where it stops.
pub fn answer<T>(original: impl FnOnce() -> T) -> Option<T> {
    answer_or_stop(original).ok()
}

/// What the original answers, or why it stops. Its message is not printed.
pub fn answer_or_stop<T>(original: impl FnOnce() -> T) -> Result<T, String> {
    static QUIET: Once = Once::new();
    QUIET.call_once(|| {
        let usual = panic::take_hook();
        panic::set_hook(Box::new(move |info| {
            if IN_ORIGINAL.get() {
                WHY.set(message(info));
            } else {
                usual(info);
            }
        }));
    });
    IN_ORIGINAL.set(true);
    let answer = panic::catch_unwind(AssertUnwindSafe(original));
    IN_ORIGINAL.set(false);
    answer.map_err(|_| WHY.take())
}

/// What it says, and the file and line at which it stops.
fn message(info: &PanicHookInfo) -> String {
    let place = info.location().map(|at| {
        let file = Path::new(at.file()).file_name().unwrap_or_default();
        format!(" ({}:{})", file.display(), at.line())
    });
    text(info.payload()).to_owned() + &place.unwrap_or_default()
}

fn text(payload: &dyn Any) -> &str {
    let fixed = payload.downcast_ref::<&str>().copied();
    let made = payload.downcast_ref::<String>().map(String::as_str);
    fixed.or(made).unwrap_or_default()
}

#[cfg(test)]
mod tests {
    use super::{answer, answer_or_stop};

    #[test]
    fn a_stop_is_no_answer() {
        let dots = [0u8; 2];
        let at = std::hint::black_box(2);
        assert_eq!(answer(|| dots[at]), None);
        assert_eq!(answer(|| dots[at - 1]), Some(0));
    }

    #[test]
    fn a_stop_says_why_and_where() {
        let why = answer_or_stop(|| panic!("no {}", "dots")).map(|()| 0);
        let why = why.unwrap_err();
        assert!(why.starts_with("no dots (stops.rs:"), "{why}");
    }
}
