//! Where the Rust panics, the port refuses. A panic's text says which of the Rust's asserts failed, and so which of
//! SPEC's questions was answered no.
use std::cell::RefCell;
use std::panic::{catch_unwind, set_hook, take_hook, AssertUnwindSafe};

thread_local! {
    // inside `quietly`: the text of the last panic
    static HEARD: RefCell<Option<String>> = const { RefCell::new(None) };
}

/// Has panics inside `quietly` kept and not printed. To be called once, first.
pub fn silence() {
    let loud = take_hook();
    set_hook(Box::new(move |info| {
        let kept = HEARD.with(|h| match &mut *h.borrow_mut() {
            Some(text) => {
                *text = info.to_string();
                true
            }
            None => false,
        });
        if !kept {
            loud(info);
        }
    }));
}

/// Runs a call of the Rust: its result, or the text of its panic.
pub fn heard<T>(call: impl FnOnce() -> T) -> Result<T, String> {
    let outer = HEARD.with(|h| h.replace(Some(String::new())));
    let result = catch_unwind(AssertUnwindSafe(call));
    let text = HEARD.with(|h| h.replace(outer)).unwrap_or_default();
    result.map_err(|_| text)
}

/// Runs a call of the Rust: its result, or the number by which SPEC 3 refuses such a call.
pub fn quietly<T>(call: impl FnOnce() -> T) -> Result<T, u8> {
    heard(call).map_err(|text| refusal(&text))
}

/// The refusal for a panic's text; 0 for one that no question of SPEC 3 foresees.
fn refusal(text: &str) -> u8 {
    let asserts = [
        ("y < self.height && x < self.width", 3),
        ("index out of bounds", 3),
        ("left == right", 4),
        ("!self.decision_stack.is_empty()", 5),
        ("bfs[(y2, x2)].is_some()", 10),
    ];
    let found = asserts.iter().find(|(words, _)| text.contains(words));
    found.map_or(0, |&(_, number)| number)
}
