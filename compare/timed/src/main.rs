//! Times the proved library beside Rust, and counts instructions. Words:
//!
//!   check         both sides' answers compared; the status is 0 where none differs
//!   count         the calls to be counted, with marks (under the counter of instructions)
//!   time [FILE]   times, medians, with the counter's numbers from FILE if it is given; the ratios last
//!   grow          how cost grows with headers and with length, and the stack that is used
#![allow(dead_code)]

#[path = "../../../lib/rust/src/boundary.rs"]
mod boundary;
mod check;
mod cursor;
mod grow;
mod jobs;
mod list;
mod measure;
mod mix;
mod same;
mod stack;
mod sum;
mod walk;

use jobs::{Job, ROOM};
use measure::Counts;

/// The least and the greatest of some ratios.
struct Between(f64, f64);

impl Between {
    fn new() -> Between {
        Between(f64::MAX, 0.0)
    }

    fn take(&mut self, ratio: f64) -> f64 {
        *self = Between(self.0.min(ratio), self.1.max(ratio));
        ratio
    }
}

/// Times in nanoseconds and, if there are counts, instructions, of every side; behind each, the ratio of the first two.
fn table(job: &Job, heads: &mut [usize], counts: &mut Option<Counts>) -> String {
    let names = job.sides.iter().map(|x| format!("{:>12}", x.0)).collect::<String>() + "  ratio";
    println!("\n{:<20}{names}{}", job.name, if counts.is_some() { names.as_str() } else { "" });
    let (mut time, mut count) = (Between::new(), Between::new());
    for frame in &job.frames {
        let ns = measure::times(job.sides, &frame.bytes, heads);
        print!("{:<20}", frame.name);
        ns.iter().for_each(|x| print!("{x:>12.1}"));
        print!("{:>7.2}", time.take(ns[0] / ns[1]));
        if let Some(counts) = counts {
            let n = counts.row(job.sides.len());
            n.iter().for_each(|x| print!("{x:>12.0}"));
            print!("{:>7.2}", count.take(n[0] / n[1]));
        }
        println!();
    }
    let counted = if counts.is_some() { format!(", by instructions {:.2} to {:.2}", count.0, count.1) } else { String::new() };
    format!("ratio, library to rust: {:<9} by time {:.2} to {:.2}{counted}", job.name, time.0, time.1)
}

fn main() {
    let words: Vec<String> = std::env::args().skip(1).collect();
    let mut heads = vec![0; ROOM];
    match words.first().map(String::as_str) {
        Some("check") => {
            let mut check = check::Check::new();
            check.all();
            println!("{} compared, {} different", check.compared, check.different);
            std::process::exit((check.different != 0) as i32);
        }
        Some("count") => measure::be_counted(&jobs::jobs(), &mut heads),
        Some("time") => {
            let mut counts = words.get(1).map(|file| Counts::read(file));
            println!("\nnanoseconds, then instructions; the loop alone is {:.1} ns of each", measure::loop_alone(&mut heads));
            let last: Vec<String> = jobs::jobs().iter().map(|job| table(job, &mut heads, &mut counts)).collect();
            println!();
            last.iter().for_each(|line| println!("{line}"));
        }
        Some("grow") => {
            grow::headers(&mut heads);
            grow::lengths(&mut heads);
            grow::stacks(&mut heads);
        }
        _ => {
            eprintln!("check, count, time or grow");
            std::process::exit(2);
        }
    }
}
