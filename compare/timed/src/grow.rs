//! How the cost grows: with the headers of a frame, with its length, and on the stack.

use crate::jobs::{lent, LIST, SLICE};
use crate::measure::times;
use crate::{mix, stack};

/// Headers of a frame: time for each header, of slicing and of listing.
pub fn headers(heads: &mut [usize]) {
    println!("\n{:<10}{:>10}{:>14}{:>10}{:>14}", "headers", "slice ns", "for each", "list ns", "for each");
    for n in [1usize, 3, 4, 8, 16, 64, 250, 1000, 4000, 8000] {
        // Ethernet, IPv6 and UDP are there besides the extensions
        let s = if n == 1 { mix::arp() } else { mix::chain(n - 3) };
        let (slice, list) = (times(&SLICE[..1], &s, heads)[0], times(&LIST[..1], &s, heads)[0]);
        println!("{n:<10}{slice:>10.1}{:>14.2}{list:>10.1}{:>14.2}", slice / n as f64, list / n as f64);
    }
}

/// Frames of one shape and several lengths.
pub fn lengths(heads: &mut [usize]) {
    println!("\n{:<10}{:>10}{:>10}", "bytes", "slice ns", "list ns");
    for n in [60usize, 200, 1500, 9000, 65_549] {
        let s = mix::plain(n);
        let (slice, list) = (times(&SLICE[..1], &s, heads)[0], times(&LIST[..1], &s, heads)[0]);
        println!("{n:<10}{slice:>10.1}{list:>10.1}");
    }
}

pub fn stacks(heads: &mut [usize]) {
    println!("\n{:<10}{:>22}{:>22}", "headers", "slice, stack bytes", "list, stack bytes");
    for n in [3usize, 4, 100, 8000] {
        let s = mix::chain(n - 3);
        let heads = lent(&s, heads);
        let (slice, list) = (stack::used(SLICE[0].1, &s, heads), stack::used(LIST[0].1, &s, heads));
        println!("{n:<10}{slice:>22}{list:>22}");
    }
}
