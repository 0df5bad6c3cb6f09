//! The checksum: F10 and F11, then many slices, as "the two bytes that go into the header".

use crate::parts::hex;
use oracle::Sum;

/// A row: its name, the slices added, and document 01's answer as bytes.
type Row = (&'static str, &'static [&'static [u8]], [u8; 2]);

/// F10 and F11; the word bodies are ours.
const ROWS: [Row; 5] = [
    (
        "F10",
        &[&[0, 1, 0xF2, 3, 0xF4, 0xF5, 0xF6, 0xF7]],
        [0x22, 0x0D],
    ),
    ("F10", &[], [0xFF, 0xFF]),
    ("F10", &[&[0xFF, 0xFF]], [0, 0]),
    ("F11", &[&[1], &[2]], [0xFC, 0xFF]),
    ("F11", &[&[1, 2]], [0xFE, 0xFD]),
];

/// Prints the rows; gives the number of those that differ.
pub fn show() -> usize {
    println!("\n== Checksum, decided by a fill");
    let mut faults = 0;
    for (row, slices, paper) in ROWS {
        let added = slices.iter().map(|slice| hex(slice)).collect::<Vec<_>>();
        let good = shown_map::checksum(slices) == paper && good(slices);
        faults += usize::from(!good);
        let no_zero = hex(&shown_map::checksum_no_zero(slices));
        println!("{row}: {} slices", slices.len());
        println!("    bytes  {}", added.join(", then "));
        println!(
            "    crate  {}, no-zero {no_zero}",
            hex(&shown_map::checksum(slices))
        );
        println!(
            "    oracle {}",
            hex(&sum(slices).ones_complement().to_be_bytes())
        );
        let end = if good {
            "Same, as listed"
        } else {
            "NOT AS LISTED"
        };
        println!("    {end}");
    }
    faults
}

/// Adds drawn frames as up to four slices each, cut anywhere; gives the number that differ.
pub fn count(frames: usize, seed: u64) -> usize {
    let mut rng = frames::Rng::new(seed);
    let mut faults = 0;
    for (_, frame) in frames::Frames::new(seed).take(frames) {
        let mut cuts = [0, 0, 0].map(|_: usize| rng.within(0..=frame.len()));
        cuts.sort_unstable();
        let [a, b, c] = cuts;
        let slices = [&frame[..a], &frame[a..b], &frame[b..c], &frame[c..]];
        faults += usize::from(!good(&slices) || !good(&[&frame[..]]));
    }
    println!("\n== Checksums of {frames} drawn frames, cut anywhere: {faults} differ");
    faults
}

/// Whether both sides say the same, plain and no-zero, and the crate's steps agree with its slices.
fn good(slices: &[&[u8]]) -> bool {
    let sum = sum(slices);
    let stepped = match slices {
        [one] => shown_map::checksum_in_steps(one) == shown_map::checksum(slices),
        _ => true,
    };
    shown_map::checksum(slices) == sum.ones_complement().to_be_bytes()
        && shown_map::checksum_no_zero(slices) == sum.ones_complement_with_no_zero().to_be_bytes()
        && stepped
}

/// The oracle's sum.
fn sum(slices: &[&[u8]]) -> Sum {
    slices
        .iter()
        .fold(Sum::new(), |sum, slice| sum.add_slice(slice))
}
