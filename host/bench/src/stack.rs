//! How much stack a call uses: the stack below it is painted before, and looked at after.

use std::thread;

const STACK: usize = 1 << 20;
const PAINTED: usize = 1 << 19;
/// What is left to the frames of the painter and the looker.
const UNPAINTED: usize = 256;
const PAINT: u8 = 0xA5;

/// Bytes of stack from the frame that makes the call, on a thread of its own, down to the deepest byte that was written; 256 where it is
/// less. Wrappers within the call are counted, room that was reserved and never written is not.
pub fn depth(mut call: impl FnMut() + Send) -> usize {
    thread::scope(|scope| {
        let measured = thread::Builder::new()
            .stack_size(STACK)
            .spawn_scoped(scope, || depth_below(&mut call));
        measured.expect("a thread").join().expect("an end")
    })
}

#[inline(never)]
fn depth_below(call: &mut dyn FnMut()) -> usize {
    let mark = 0u8;
    let here = &raw const mark as usize;
    paint(here);
    call();
    deepest(here)
}

/// Paints the stack below a place, down to PAINTED bytes: within the thread's stack, and below every frame in use.
#[inline(never)]
fn paint(here: usize) {
    for below in UNPAINTED..PAINTED {
        unsafe { ((here - below) as *mut u8).write_volatile(PAINT) };
    }
}

/// How far below a place the paint is gone.
#[inline(never)]
fn deepest(here: usize) -> usize {
    let gone = |below: &usize| unsafe { ((here - below) as *const u8).read_volatile() != PAINT };
    let mut painted = (UNPAINTED..PAINTED).rev();
    painted.find(gone).unwrap_or(UNPAINTED)
}
