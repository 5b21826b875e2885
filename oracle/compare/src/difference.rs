//! A difference between port and oracle; a panic is one, too.

use std::cell::RefCell;
use std::fmt::Display;
use std::panic::{self, AssertUnwindSafe};

pub struct Difference {
    /// What was compared.
    pub what: String,
    pub port: String,
    pub oracle: String,
}

pub type Checked<T = ()> = Result<T, Difference>;

/// A difference unless the port's answer is the oracle's.
pub fn same<T: PartialEq>(
    what: impl Display,
    port: &T,
    oracle: &T,
    text: impl Fn(&T) -> String,
) -> Checked {
    match port == oracle {
        true => Ok(()),
        false => Err(Difference { what: what.to_string(), port: text(port), oracle: text(oracle) }),
    }
}

/// A difference unless the port left words as they were.
pub fn unchanged(what: impl Display, unchanged: bool) -> Checked {
    let text = |unchanged: &bool| if *unchanged { "unchanged" } else { "changed" }.to_string();
    same(what, &unchanged, &true, text)
}

thread_local! {
    /// Message and place of the latest panic.
    static PANIC: RefCell<String> = const { RefCell::new(String::new()) };
}

/// From now on panics are kept for `caught` and not printed.
pub fn keep_panics() {
    panic::set_hook(Box::new(|info| PANIC.set(info.to_string())));
}

/// What a call gives; a difference if it panics.
pub fn caught<T>(who: &str, call: impl FnOnce() -> T) -> Checked<T> {
    panic::catch_unwind(AssertUnwindSafe(call)).map_err(|_| Difference {
        what: format!("{who} {}", PANIC.take()),
        port: String::new(),
        oracle: String::new(),
    })
}

#[test]
fn a_panic_is_a_difference() {
    keep_panics();
    let found = caught("goscript", || -> u32 { panic!("no such row") }).err().unwrap();
    assert!(found.what.starts_with("goscript panicked at src"), "{}", found.what);
    assert!(found.what.ends_with("no such row"), "{}", found.what);
}
