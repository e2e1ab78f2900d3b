//! The words of errors as toml_parser has them: texts and lists that live as long as the program.
//!
//! The proved library gives its words by value, and nothing is spelled here. So the words of an error in an edition are read
//! when it is first reported, and are then kept where they are: at most 30 times in a program, fifteen errors in two
//! editions, however many errors it reports. That memory is not given back.

use super::Expected;
use crate::{Edition, ParseError, Words};
use alloc::boxed::Box;
use alloc::vec::Vec;
use core::ptr::null_mut;
use core::sync::atomic::{AtomicPtr, Ordering};

/// The words of an error in an edition.
pub(super) struct Kept {
    description: Words,
    expected: Vec<crate::Expected>,
    /// The same list in toml_parser's shape, which borrows the texts of the one above.
    borrowed: Once<Vec<Expected>>,
}

impl Kept {
    fn read(error: &ParseError) -> Self {
        Self { description: error.description(), expected: error.expected().collect(), borrowed: Once::new() }
    }

    pub(super) fn description(&'static self) -> &'static str {
        &self.description
    }

    pub(super) fn expected(&'static self) -> &'static [Expected] {
        self.borrowed.get_or_make(|| self.expected.iter().map(borrowed).collect())
    }
}

/// In toml_parser's shape.
fn borrowed(expected: &'static crate::Expected) -> Expected {
    match expected {
        crate::Expected::Literal(text) => Expected::Literal(text),
        crate::Expected::Description(words) => Expected::Description(words),
    }
}

/// The words of an error, which are the same for all errors of its number and edition.
pub(super) fn words_of(error: &ParseError) -> &'static Kept {
    static TOML_10: [Once<Kept>; 15] = [const { Once::new() }; 15];
    static TOML_11: [Once<Kept>; 15] = [const { Once::new() }; 15];
    let by_number = match error.edition() {
        Edition::Toml10 => &TOML_10,
        Edition::Toml11 => &TOML_11,
    };
    // Every error has a number of 1 to 15.
    by_number[error.number() - 1].get_or_make(|| Kept::read(error))
}

/// A value that is made when it is first asked for, and is then never changed, moved or freed. `std` has `OnceLock` for this,
/// and `core` has nothing that threads can share.
///
/// Its pointer is null until there is a value. After that it is the pointer of a `Box` that was given up, and no other:
/// nothing but the exchange in `get_or_make` writes it, and only where it is null.
struct Once<T>(AtomicPtr<T>);

impl<T: Send + Sync> Once<T> {
    const fn new() -> Self {
        Self(AtomicPtr::new(null_mut()))
    }

    /// The value. Where several threads ask for it first at the same time, each makes one, the first to be stored is every
    /// thread's, and the others are freed.
    fn get_or_make(&'static self, make: impl FnOnce() -> T) -> &'static T {
        let mut value = self.0.load(Ordering::Acquire);
        if value.is_null() {
            let made = Box::into_raw(Box::new(make()));
            value = match self.0.compare_exchange(null_mut(), made, Ordering::AcqRel, Ordering::Acquire) {
                Ok(_) => made,
                Err(first) => {
                    // SAFETY: `made` comes from `Box::into_raw` above, and was not stored: this is its only pointer.
                    drop(unsafe { Box::from_raw(made) });
                    first
                }
            };
        }
        // SAFETY: `value` is not null, so it is the pointer of a `Box` that is never freed and to which there is no `&mut`. It
        // was stored with `Release` after the value was written, and is read here with `Acquire`, or was made here; so the
        // value is seen whole. Threads may share it, since it is `Sync`.
        unsafe { &*value }
    }
}
