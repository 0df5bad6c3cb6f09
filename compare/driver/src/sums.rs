//! Pieces to sum: every length up to 40 in one piece and in two, then drawn ones.

use frames::Rng;

pub fn sums(seed: u64, drawn: usize) -> impl Iterator<Item = Vec<Vec<u8>>> {
    let mut rng = Rng::new(seed);
    let fixed = (0..=40).flat_map(|length: usize| {
        (0..=length).map(move |cut| {
            let bytes: Vec<u8> = (0..length).map(|i| (i * 37 + length) as u8).collect();
            vec![bytes[..cut].to_vec(), bytes[cut..].to_vec()]
        })
    });
    fixed.chain((0..drawn).map(move |_| pieces(&mut rng)))
}

/// One to four pieces of up to 1,600 bytes; some all zeros or all ones, where a sum may come to 0 or to 65,535.
fn pieces(rng: &mut Rng) -> Vec<Vec<u8>> {
    let count = 1 + rng.below(4);
    (0..count)
        .map(|_| {
            let longest = [8, 64, 1600][rng.below(3)];
            let length = rng.below(longest);
            let fill = rng.below(8);
            (0..length)
                .map(|_| match fill {
                    0 => 0,
                    1 => 0xff,
                    _ => rng.byte(),
                })
                .collect()
        })
        .collect()
}
