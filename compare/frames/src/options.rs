//! TCP option slices: drawn by chance, sound and damaged, and structured ones around every rule.

use crate::odometer::Odometer;
use crate::rng::Rng;

/// The known kinds with the sizes that RFC 9293, 7323 and 2018 give them.
const KNOWN: [(u8, usize); 8] = [
    (2, 4),
    (3, 3),
    (4, 2),
    (5, 10),
    (5, 18),
    (5, 26),
    (5, 34),
    (8, 10),
];

/// What may stand before the option that a structured case is about.
const BEFORE: [&[u8]; 5] = [
    &[],
    &[1],
    &[2, 4, 5, 0xB4],
    &[254, 5, 0, 0, 0],
    &[3, 3, 7, 1, 4, 2],
];

/// Bytes that mean something as a kind, a length or both.
const TELLING: [u8; 9] = [0, 1, 2, 3, 4, 5, 8, 10, 99];

/// An endless iterator of option slices; the same seed gives the same slices.
#[derive(Clone, Debug)]
pub struct OptionSlices {
    rng: Rng,
}

impl OptionSlices {
    /// The slices of a seed.
    pub fn new(seed: u64) -> OptionSlices {
        OptionSlices {
            rng: Rng::new(seed),
        }
    }
}

impl Iterator for OptionSlices {
    type Item = Vec<u8>;

    fn next(&mut self) -> Option<Vec<u8>> {
        let rng = &mut self.rng;
        let room = match rng.weighted(&[70, 20, 9, 1]) {
            0 => rng.within(0..=40),
            1 => rng.within(1..=10) * 4,
            2 => rng.within(41..=400),
            _ => rng.within(401..=5_000),
        };
        Some(match rng.weighted(&[35, 45, 20]) {
            0 => sound_options(rng, room),
            1 => damaged_options(rng, room),
            _ => rng.bytes(room),
        })
    }
}

/// Options of right sizes in at most `room` bytes, with an end or without.
pub(crate) fn sound_options(rng: &mut Rng, room: usize) -> Vec<u8> {
    let mut options = Vec::new();
    while options.len() < room {
        let left = room - options.len();
        let (kind, size) = match rng.weighted(&[30, 50, 18, 2]) {
            0 => (1, 1),
            1 => rng.pick(&KNOWN),
            2 => (rng.within(9..=255) as u8, rng.within(2..=12)),
            _ => (0, 1),
        };
        if size > left {
            if rng.chance(40) {
                break;
            }
            options.push(1);
            continue;
        }
        options.push(kind);
        if size > 1 {
            options.push(size as u8);
            options.extend(rng.bytes(size - 2));
        }
    }
    options
}

/// Options of which something is wrong, mostly.
pub(crate) fn damaged_options(rng: &mut Rng, room: usize) -> Vec<u8> {
    let mut options = sound_options(rng, room);
    for _ in 0..rng.within(1..=3) {
        if options.is_empty() {
            break;
        }
        let at = rng.below(options.len());
        match rng.below(4) {
            0 => options[at] = rng.byte(),
            1 => options[at] = rng.pick(&TELLING),
            2 => options[at] = options[at].wrapping_add(rng.pick(&[1, 255])),
            _ => options.truncate(at + 1),
        }
    }
    options
}

/// Every kind with every length byte, one byte short, exact and one long, behind several openings;
/// and every slice of up to six telling bytes.
pub fn option_edges() -> impl Iterator<Item = Vec<u8>> {
    let sized = Odometer::new([BEFORE.len(), 256, 256, 3]).map(|[before, kind, length, there]| {
        let mut options = BEFORE[before].to_vec();
        let end = options.len() + (length + there).saturating_sub(1);
        options.extend([kind as u8, length as u8]);
        options.resize(end, 1);
        options
    });
    let told = (0..=6_u32).flat_map(|length| {
        (0..TELLING.len().pow(length)).map(move |number| {
            let mut left = number;
            let mut options = Vec::new();
            for _ in 0..length {
                options.push(TELLING[left % TELLING.len()]);
                left /= TELLING.len();
            }
            options
        })
    });
    sized.chain(told)
}
