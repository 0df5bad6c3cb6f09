//! Times and counts of instructions.

use crate::jobs::{lent, Job, Run, NOTHING};
use std::hint::black_box;
use std::time::Instant;

/// How often each side is timed, in turn with the others.
const ROUNDS: usize = 41;
/// How long one timing takes, about.
const NANOSECONDS: f64 = 200_000.0;
/// How many calls are counted at once.
pub const CALLS: u64 = 100;

fn call(run: Run, s: &[u8], heads: &mut [usize], times: u64) {
    for _ in 0..times {
        run(black_box(s), heads);
    }
}

fn timed(run: Run, s: &[u8], heads: &mut [usize], times: u64) -> f64 {
    let start = Instant::now();
    call(run, s, heads, times);
    start.elapsed().as_nanos() as f64 / times as f64
}

fn median(mut v: Vec<f64>) -> f64 {
    v.sort_by(f64::total_cmp);
    v[v.len() / 2]
}

/// Nanoseconds a call of each side: medians of rounds in which every side has its turn. The loop's own part is in them, since what a
/// call and a loop take at once can't be told apart by subtraction.
pub fn times(sides: &[(&str, Run)], s: &[u8], heads: &mut [usize]) -> Vec<f64> {
    let heads = lent(s, heads);
    let once = timed(sides[0].1, s, heads, 16).max(1.0);
    let calls = (NANOSECONDS / once).ceil() as u64;
    let mut all = vec![vec![]; sides.len()];
    for _ in 0..ROUNDS {
        for (i, side) in sides.iter().enumerate() {
            all[i].push(timed(side.1, s, heads, calls));
        }
    }
    all.into_iter().map(median).collect()
}

/// A mark for the counter of instructions, which writes down how many there were so far.
fn mark() {
    black_box(std::os::unix::process::parent_id());
}

/// Nanoseconds a turn of the loop that calls nothing.
pub fn loop_alone(heads: &mut [usize]) -> f64 {
    times(&[("loop", NOTHING)], &[0; 64], heads)[0]
}

/// The calls that are counted, with a mark before and behind those of each side; the loop alone first.
pub fn be_counted(jobs: &[Job], heads: &mut [usize]) {
    for job in jobs {
        for frame in &job.frames {
            let heads = lent(&frame.bytes, heads);
            for run in std::iter::once(NOTHING).chain(job.sides.iter().map(|side| side.1)) {
                call(run, &frame.bytes, heads, 3);
                mark();
                call(run, &frame.bytes, heads, CALLS);
                mark();
            }
        }
    }
}

/// The counter's numbers, read back in the order in which they were made.
pub struct Counts {
    marks: std::vec::IntoIter<u64>,
}

impl Counts {
    pub fn read(file: &str) -> Counts {
        let text = std::fs::read_to_string(file).expect(file);
        let marks: Vec<u64> = text.lines().map(|x| x.parse().expect("a number a line")).collect();
        Counts { marks: marks.into_iter() }
    }

    fn next(&mut self) -> f64 {
        let before = self.marks.next().expect("a mark before");
        let behind = self.marks.next().expect("a mark behind");
        (behind - before) as f64 / CALLS as f64
    }

    /// Instructions a call of each side of a job, without the loop's own.
    pub fn row(&mut self, sides: usize) -> Vec<f64> {
        let own = self.next();
        (0..sides).map(|_| self.next() - own).collect()
    }
}
