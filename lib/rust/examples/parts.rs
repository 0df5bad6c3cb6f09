//! Prints the parts of the Ethernet frame in a file, or its refusal, in the words of the program `slice_frame`.
//!
//!     cargo run --example parts FILE
//!
//! The status is 0 for an accepted frame, 1 for a refused one, 2 for trouble.
use bhirkulom::{headers, Entry, Refusal, SlicedPacket};
use std::process::ExitCode;
use std::{env, fs};

fn print(frame: &[u8]) -> Result<(), Refusal> {
    let packet = SlicedPacket::from_ethernet(frame)?;
    for header in headers(Entry::Ethernet, frame) {
        let header = header?;
        println!("{} {} {}", header.kind, header.offset, header.slice.len());
    }
    println!("payload {} {}", packet.payload.offset, packet.payload.slice.len());
    println!("stop {}", packet.stop.number());
    Ok(())
}

fn main() -> ExitCode {
    let Some(path) = env::args().nth(1) else {
        eprintln!("parts: which file?");
        return ExitCode::from(2);
    };
    let frame = match fs::read(&path) {
        Ok(frame) => frame,
        Err(trouble) => {
            eprintln!("parts: {path}: {trouble}");
            return ExitCode::from(2);
        }
    };
    match print(&frame) {
        Ok(()) => ExitCode::SUCCESS,
        Err(refusal) => {
            println!("{refusal}");
            ExitCode::from(1)
        }
    }
}
