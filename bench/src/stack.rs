//! How much of the stack a call uses: the stack below the caller is painted, and what is no longer painted was used.

use std::arch::asm;

const PAINT: u64 = 0x5ca1_ab1e_c0de_d00d;

/// As much of the stack as is painted.
const DEPTH: usize = 4 << 20;

/// What the painting itself needs between its own frame and the first painted word.
const MARGIN: usize = 4 << 10;

/// The bytes below its caller that the work uses, to within the margin above.
pub fn used(work: impl FnOnce() + Send) -> usize {
    let painted = || std::hint::black_box(paint_and_measure(work));
    std::thread::scope(|scope| {
        let thread = std::thread::Builder::new().stack_size(2 * DEPTH);
        thread.spawn_scoped(scope, painted).expect("a thread").join().expect("the work ends")
    })
}

#[inline(never)]
fn paint_and_measure(work: impl FnOnce()) -> usize {
    let top: usize;
    unsafe { asm!("mov {}, rsp", out(reg) top, options(nomem, nostack, preserves_flags)) };
    let bottom = (top - DEPTH) as *mut u64;
    let words = (DEPTH - MARGIN) / 8;
    for word in 0..words {
        unsafe { bottom.add(word).write_volatile(PAINT) };
    }
    call(work);
    let clean = (0..words).take_while(|&word| unsafe { bottom.add(word).read_volatile() } == PAINT).count();
    if clean == words {
        0
    } else {
        DEPTH - 8 * clean
    }
}

#[inline(never)]
fn call(work: impl FnOnce()) {
    work();
}
