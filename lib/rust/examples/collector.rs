//! A small collector: slices each frame of a classic pcap file and counts what became of it. No frame is left out of the counts.
//!
//!     cargo run --example collector CAPTURE
//!
//! The status is 0 where every frame was accepted, 1 where one was refused, 2 for trouble with the file.
mod pcap;

use bhirkulom::{Kind, SlicedPacket};
use std::collections::BTreeMap;
use std::env;
use std::process::ExitCode;

/// What became of the frames: accepted ones by their stop, refused ones by the number of the refusal.
#[derive(Default)]
struct Tally {
    frames: usize,
    cut: usize,
    samples: usize,
    accepted: BTreeMap<u8, usize>,
    refused: BTreeMap<u8, usize>,
}

impl Tally {
    fn take(&mut self, frame: &[u8]) {
        self.frames += 1;
        match SlicedPacket::from_ethernet(frame) {
            Ok(packet) => {
                *self.accepted.entry(packet.stop.number()).or_default() += 1;
                if packet.transport.is_some_and(|header| header.kind == Kind::Udp) {
                    // without the padding behind the lengths that IP and UDP declare
                    self.samples += packet.payload.slice.len();
                }
            }
            Err(refusal) => {
                *self.refused.entry(refusal.number()).or_default() += 1;
                println!("frame {}: {refusal}", self.frames);
            }
        }
    }

    fn print(&self) {
        println!("{} frames, {} of them cut by the capture", self.frames, self.cut);
        for (stop, count) in &self.accepted {
            println!("accepted, stop {stop}: {count}");
        }
        for (number, count) in &self.refused {
            println!("refused {number}: {count}");
        }
        println!("{} bytes behind UDP headers", self.samples);
    }
}

fn collect(path: &str, tally: &mut Tally) -> Result<(), String> {
    for record in pcap::records(path)? {
        let record = record?;
        tally.cut += usize::from(record.kept.len() < record.on_wire);
        tally.take(&record.kept);
    }
    Ok(())
}

fn main() -> ExitCode {
    let Some(path) = env::args().nth(1) else {
        eprintln!("collector: which capture?");
        return ExitCode::from(2);
    };
    let mut tally = Tally::default();
    let collected = collect(&path, &mut tally);
    tally.print();
    match collected {
        Err(trouble) => {
            eprintln!("collector: {trouble}");
            ExitCode::from(2)
        }
        Ok(()) => ExitCode::from(u8::from(!tally.refused.is_empty())),
    }
}
