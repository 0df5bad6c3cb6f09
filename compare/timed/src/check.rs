//! Both sides give the same answers: to the frames that are timed, to each of them cut at every length, and to many with a few bytes changed.

use crate::boundary::{self, CountReply, Packet, Row};
use crate::{mix, same, sum};

fn words(p: &Packet) -> Vec<usize> {
    let mut v = vec![p.status, p.link.kind, p.link.at, p.link.len, p.count];
    v.extend(p.tags.iter().flat_map(|t| [t.at, t.len]));
    v.extend([p.net.header.kind, p.net.header.at, p.net.header.len, p.net.exts.at, p.net.exts.len]);
    v.extend([p.net.fragmented as usize, p.transport.kind, p.transport.at, p.transport.len]);
    v.extend([p.payload.at, p.payload.len, p.number, p.numbering, p.stop]);
    v.extend(row_words(&p.refusal));
    v
}

fn row_words(r: &Row) -> [usize; 6] {
    [r.number, r.layer, r.offset, r.values[0], r.values[1], r.values[2]]
}

/// The status, the count, the refusal and all of the lent numbers, which were full, of one listing.
type Listing = (usize, usize, [usize; 6], Vec<usize>);

fn listing(room: usize, list: impl Fn(&mut [usize]) -> CountReply) -> Listing {
    let mut heads = vec![usize::MAX; room];
    let r = list(&mut heads);
    (r.status, r.count, row_words(&r.refusal), heads)
}

pub struct Check {
    pub compared: u64,
    pub different: u64,
}

impl Check {
    pub fn new() -> Check {
        Check { compared: 0, different: 0 }
    }

    fn hold<T: PartialEq + std::fmt::Debug>(&mut self, what: &str, s: &[u8], library: T, rust: T) {
        self.compared += 1;
        if library != rust {
            self.different += 1;
            if self.different < 10 {
                println!("{what} of {s:02x?}:\n library {library:?}\n rust {rust:?}");
            }
        }
    }

    pub fn frame(&mut self, s: &[u8]) {
        self.hold("slice", s, words(&boundary::slice(s, 1)), words(&same::slice(s)));
        // room behind all headers; then for two of them, and a number
        let count = boundary::headers(s, 1, 0, &mut []).count;
        for room in [3 * count + 17, 7] {
            let library = listing(room, |heads| boundary::headers(s, 1, 0, heads));
            self.hold("list", s, library.clone(), listing(room, |heads| same::headers(s, heads)));
            self.hold("straight list", s, library, listing(room, |heads| same::headers_straight(s, heads)));
        }
        self.hold("sum", s, boundary::sum_add(0, s), sum::sum(s));
    }

    /// Frames of the mix with up to three bytes changed and some cut, drawn from a seed.
    fn changed(&mut self, frames: usize) {
        let mix = mix::mix();
        let mut state = 88_172_645_463_325_252u64;
        let mut draw = |n: usize| {
            state ^= state << 13;
            state ^= state >> 7;
            state ^= state << 17;
            (state >> 11) as usize % n
        };
        const VALUES: &[u8] = &[0, 1, 2, 4, 6, 8, 17, 43, 44, 51, 60, 0x45, 0x46, 0x60, 0x81, 0x86, 0x88, 0x91, 0xa8, 0xdd, 0xff];
        for _ in 0..frames {
            let mut s = mix[draw(mix.len())].bytes.clone();
            s.truncate(120);
            for _ in 0..1 + draw(3) {
                let at = draw(s.len().min(80));
                s[at] = VALUES[draw(VALUES.len())];
            }
            if draw(3) == 0 {
                s.truncate(draw(s.len()));
            }
            self.frame(&s);
        }
    }

    pub fn all(&mut self) {
        for frame in mix::mix().iter().chain(&mix::lengths()) {
            for end in 0..frame.bytes.len().min(1500) {
                self.frame(&frame.bytes[..end]);
            }
            self.frame(&frame.bytes);
        }
        self.changed(300_000);
    }
}
