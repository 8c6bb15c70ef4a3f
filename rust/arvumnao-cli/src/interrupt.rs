//! Ctrl-C. std has no signals, so three functions of libc are declared here; the command needs no more of it.
//!
//! After the first signal a run ends after the current iteration; the second ends the command at once. SIGTERM counts as Ctrl-C: batch
//! queues send it before they kill.

use crate::failure::Status;
use std::ffi::c_int;
use std::sync::atomic::{AtomicBool, Ordering};

const SIGINT: c_int = 2;
const SIGTERM: c_int = 15;
/// The value of a handler that means: ignored.
const IGNORED: usize = 1;

extern "C" {
    fn signal(number: c_int, handler: usize) -> usize;
    fn _exit(status: c_int) -> !;
}

static SEEN: AtomicBool = AtomicBool::new(false);

/// Notes a signal. It may come at any moment, so the handler only sets a mark, or ends the process.
extern "C" fn noted(_: c_int) {
    if SEEN.swap(true, Ordering::SeqCst) {
        // SAFETY: `_exit` may be called in a handler; it ends the process without anything else being run.
        unsafe { _exit(Status::Interrupted as c_int) }
    }
}

/// From now on signals are noted. A signal that is ignored, as under nohup, stays ignored.
pub fn listen() {
    let handler = noted as extern "C" fn(c_int) as usize;
    for number in [SIGINT, SIGTERM] {
        // SAFETY: the handler has the type that `signal` asks for, and touches nothing but an atomic mark.
        unsafe {
            if signal(number, handler) == IGNORED {
                signal(number, IGNORED);
            }
        }
    }
}

/// Whether a signal came.
pub fn came() -> bool {
    SEEN.load(Ordering::SeqCst)
}
