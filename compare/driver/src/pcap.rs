//! Frames of a classic capture file (pcap), both byte orders, of Ethernet.

use std::fs;

pub fn frames(path: &str) -> Result<Vec<Vec<u8>>, String> {
    let file = fs::read(path).map_err(|trouble| format!("{path}: {trouble}"))?;
    let word = |at: usize, swapped: bool| -> Option<u32> {
        let bytes: [u8; 4] = file.get(at..at + 4)?.try_into().ok()?;
        Some(if swapped {
            u32::from_be_bytes(bytes)
        } else {
            u32::from_le_bytes(bytes)
        })
    };
    let swapped = match word(0, false) {
        Some(0xa1b2_c3d4 | 0xa1b2_3c4d) => false,
        Some(0xd4c3_b2a1 | 0x4d3c_b2a1) => true,
        _ => return Err(format!("{path}: no classic capture file")),
    };
    if word(20, swapped) != Some(1) {
        return Err(format!("{path}: its frames aren't Ethernet"));
    }
    let mut frames = Vec::new();
    let mut at = 24;
    while let Some(stored) = word(at + 8, swapped) {
        let Some(frame) = file.get(at + 16..at + 16 + stored as usize) else {
            eprintln!("compare: {path}: the last record is cut, and left out");
            break;
        };
        frames.push(frame.to_vec());
        at += 16 + stored as usize;
    }
    Ok(frames)
}
