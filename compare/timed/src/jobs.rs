//! What is timed: each job done by the proved library and by Rust, on frames of several kinds.

use crate::mix::{self, Frame};
use crate::{boundary, same, sum, walk};
use bhirkulom::SlicedPacket;
use std::hint::black_box;

/// Numbers to lend to a list of headers: room for those of the longest chain.
pub const ROOM: usize = 3 * 8192;

/// How many headers there is room for in what is lent, at least: as many as the crate lends room for.
const FEW: usize = 16;

/// Those of them that are lent for a frame. Each call writes all of them, zeros where it has no header, so more would be timed for their zeros.
pub fn lent<'a>(s: &[u8], heads: &'a mut [usize]) -> &'a mut [usize] {
    let count = boundary::headers(s, 1, 0, &mut []).count;
    &mut heads[..3 * count.max(FEW)]
}

/// One side of a job: does it once.
pub type Run = fn(&[u8], &mut [usize]);

pub struct Job {
    pub name: &'static str,
    pub frames: Vec<Frame>,
    /// The first is the proved library's, the second the one that it is held to; the others are there to be seen.
    pub sides: &'static [(&'static str, Run)],
}

fn nothing(s: &[u8], _: &mut [usize]) {
    black_box(s);
}

fn slice(s: &[u8], _: &mut [usize]) {
    black_box(&boundary::slice(s, 1));
}

fn slice_rust(s: &[u8], _: &mut [usize]) {
    black_box(&same::slice(s));
}

fn slice_own(s: &[u8], _: &mut [usize]) {
    black_box(&walk::slice(s));
}

fn slice_wrapper(s: &[u8], _: &mut [usize]) {
    black_box(&SlicedPacket::from_ethernet(s));
}

fn list(s: &[u8], heads: &mut [usize]) {
    black_box(&boundary::headers(s, 1, 0, heads));
}

fn list_rust(s: &[u8], heads: &mut [usize]) {
    black_box(&same::headers(s, heads));
}

fn list_straight(s: &[u8], heads: &mut [usize]) {
    black_box(&same::headers_straight(s, heads));
}

fn sum(s: &[u8], _: &mut [usize]) {
    black_box(boundary::sum_add(0, s));
}

fn sum_rust(s: &[u8], _: &mut [usize]) {
    black_box(sum::sum(s));
}

/// The loop alone, which is taken off every count of instructions.
pub const NOTHING: Run = nothing;

pub const SLICE: &[(&str, Run)] =
    &[("library", slice), ("rust", slice_rust), ("rust types", slice_own), ("wrapper", slice_wrapper)];

pub const LIST: &[(&str, Run)] = &[("library", list), ("rust", list_rust), ("straight", list_straight)];

pub const SUM: &[(&str, Run)] = &[("library", sum), ("rust", sum_rust)];

pub fn jobs() -> Vec<Job> {
    vec![
        Job { name: "slice", frames: mix::mix(), sides: SLICE },
        Job { name: "list", frames: mix::mix(), sides: LIST },
        Job { name: "checksum", frames: mix::lengths(), sides: SUM },
    ]
}
