//! The endless row of drawn frames: sound ones, damaged ones and noise, all from one seed.

use crate::compose::{compose, noise};
use crate::damage::damage;
use crate::entry::Case;
use crate::rng::Rng;

/// An endless iterator of frames; the same seed gives the same frames.
#[derive(Clone, Debug)]
pub struct Frames {
    rng: Rng,
}

impl Frames {
    /// The frames of a seed.
    pub fn new(seed: u64) -> Frames {
        Frames {
            rng: Rng::new(seed),
        }
    }
}

impl Iterator for Frames {
    type Item = Case;

    fn next(&mut self) -> Option<Case> {
        let rng = &mut self.rng;
        let (mut draft, pieces) = match rng.weighted(&[48, 34, 12, 6]) {
            0 => (compose(rng), 0),
            1 => (compose(rng), 1),
            2 => (compose(rng), rng.within(2..=4)),
            _ => (noise(rng), 0),
        };
        for _ in 0..pieces {
            damage(rng, &mut draft);
        }
        Some((draft.entry, draft.bytes))
    }
}
