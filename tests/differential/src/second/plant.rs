//! Which fault is planted.

use super::Fault;
use std::cell::Cell;

thread_local! {
    static PLANTED: Cell<Fault> = const { Cell::new(Fault::None) };
}

pub fn plant(fault: Fault) {
    PLANTED.with(|p| p.set(fault));
}

/// The one that is planted.
pub(super) fn fault() -> Fault {
    PLANTED.with(|p| p.get())
}

pub(super) fn planted(known: Fault) -> bool {
    fault() == known
}

/// Without the planted fault.
pub(super) fn unplanted<T>(call: impl FnOnce() -> T) -> T {
    let fault = PLANTED.with(|p| p.replace(Fault::None));
    let given = call();
    plant(fault);
    given
}
