//! The records of a classic capture file (pcap) of Ethernet frames, in either byte order.

use std::fs;

/// What is left to read, and how.
pub struct Records {
    file: Vec<u8>,
    at: usize,
    number: fn([u8; 4]) -> u32,
}

/// A record: the bytes that were kept of a frame, and how many it had on the wire.
pub struct Record {
    pub kept: Vec<u8>,
    pub on_wire: usize,
}

/// Opens a file; the text says why it can't be read as a capture.
pub fn records(path: &str) -> Result<Records, String> {
    let file = fs::read(path).map_err(|trouble| format!("{path}: {trouble}"))?;
    let number = match file.get(..4) {
        Some([0xd4, 0xc3, 0xb2, 0xa1] | [0x4d, 0x3c, 0xb2, 0xa1]) => u32::from_le_bytes,
        Some([0xa1, 0xb2, 0xc3, 0xd4] | [0xa1, 0xb2, 0x3c, 0x4d]) => u32::from_be_bytes,
        _ => return Err(format!("{path}: no classic capture file")),
    };
    let records = Records { file, at: 24, number };
    match records.word(20) {
        Some(1) => Ok(records),
        Some(other) => Err(format!("{path}: link type {other}, where 1 is Ethernet")),
        None => Err(format!("{path}: it ends in its header")),
    }
}

impl Records {
    fn word(&self, at: usize) -> Option<u32> {
        let bytes = self.file.get(at..at + 4)?.try_into().ok()?;
        Some((self.number)(bytes))
    }

    fn record(&self) -> Option<Record> {
        let kept = self.word(self.at + 8)? as usize;
        let on_wire = self.word(self.at + 12)? as usize;
        let kept = self.file.get(self.at + 16..)?.get(..kept)?.to_vec();
        Some(Record { kept, on_wire })
    }
}

/// Each record, and an error for the bytes at the file's end that are no whole one.
impl Iterator for Records {
    type Item = Result<Record, String>;

    fn next(&mut self) -> Option<Self::Item> {
        let left = self.file.len() - self.at;
        if left == 0 {
            return None;
        }
        match self.record() {
            Some(record) => {
                self.at += 16 + record.kept.len();
                Some(Ok(record))
            }
            None => {
                self.at = self.file.len();
                Some(Err(format!("the last record is cut: {left} bytes are left")))
            }
        }
    }
}
