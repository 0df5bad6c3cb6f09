//! How much stack a call uses: a stretch below the caller is painted, the call made, and the paint looked for again.

use crate::jobs::Run;
use std::mem::MaybeUninit;
use std::ptr::{addr_of, addr_of_mut};

/// Less than a page: a longer frame would be touched page by page when it is entered, and the paint with it.
const STRETCH: usize = 3 * 1024;
const PAINT: u8 = 0xA5;

#[inline(never)]
fn paint() {
    let mut stretch = MaybeUninit::<[u8; STRETCH]>::uninit();
    let first = addr_of_mut!(stretch) as *mut u8;
    for i in 0..STRETCH {
        // SAFETY: inside the array, which is this function's own
        unsafe { first.add(i).write_volatile(PAINT) };
    }
}

/// Bytes of the stretch, from its upper end, that no longer hold the paint.
#[inline(never)]
fn unpainted() -> usize {
    let stretch = MaybeUninit::<[u8; STRETCH]>::uninit();
    let first = addr_of!(stretch) as *const u8;
    // SAFETY: inside the array. It is read as it was left, which only a measurement may do: a wrong byte is a wrong figure and no more
    let kept = (0..STRETCH).take_while(|&i| unsafe { first.add(i).read_volatile() } == PAINT).count();
    STRETCH - kept
}

/// The three calls come from one frame, so that `paint` and `unpainted`, whose frames are alike, lie where the call's frame lay.
#[inline(never)]
pub fn used(run: Run, s: &[u8], heads: &mut [usize]) -> usize {
    paint();
    run(s, heads);
    unpainted()
}
