//! How much stack a call uses.

use std::ptr;
use std::thread;

use crate::calls::{self, Serve};
use crate::rows::Prepared;

/// Bytes of stack that are painted, beginning some way below the painter's own frame.
const DEPTH: usize = 1 << 17;
const GAP: usize = 256;
const PAINT: u8 = 0xC5;

/// Bytes of stack below the caller's frame, proved and second.
pub fn used(row: &Prepared) -> [usize; 2] {
    [calls::proved, calls::second].map(|serve| on_own_stack(|| deepest(serve, row) - deepest(calls::nothing, row)))
}

/// The same of any work.
pub fn used_by(work: impl Fn() + Sync) -> usize {
    on_own_stack(|| deepest_of(&work) - deepest_of(|| ()))
}

fn on_own_stack(measured: impl Fn() -> usize + Sync) -> usize {
    thread::scope(|scope| scope.spawn(&measured).join().expect("a stack that is large enough"))
}

fn deepest(serve: Serve, row: &Prepared) -> usize {
    let (mut book, mut list) = (row.book.clone(), [0; 64]);
    painted(true);
    serve(&row.call, &mut book, &mut list);
    painted(false)
}

#[inline(never)]
fn deepest_of(work: impl Fn()) -> usize {
    painted(true);
    work();
    painted(false)
}

/// Paints the stack below, or looks how much of the paint has gone: the bytes down to the lowest such one.
///
/// The thread's stack is larger than what is painted, and nothing else runs on it meanwhile.
#[inline(never)]
fn painted(anew: bool) -> usize {
    let here = 0u8;
    let lowest = (&here as *const u8 as *mut u8).wrapping_sub(GAP + DEPTH);
    for byte in 0..DEPTH {
        let place = lowest.wrapping_add(byte);
        if anew {
            unsafe { ptr::write_volatile(place, PAINT) };
        } else if unsafe { ptr::read_volatile(place) } != PAINT {
            return GAP + DEPTH - byte;
        }
    }
    GAP
}
