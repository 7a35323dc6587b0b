//! Answers of more than 16 bytes: x86-64 passes them through a pointer that stands before the arguments. The
//! declarations name that pointer, so that they also fit a library compiled from the same module for another machine.
use std::mem::MaybeUninit;

/// The answer that a call leaves behind its first pointer.
///
/// # Safety
/// The call writes all of it.
pub unsafe fn answer_of<A>(call: impl FnOnce(*mut A) -> *mut A) -> A {
    let mut answer = MaybeUninit::uninit();
    call(answer.as_mut_ptr());
    // SAFETY: the call has written all of it.
    unsafe { answer.assume_init() }
}
