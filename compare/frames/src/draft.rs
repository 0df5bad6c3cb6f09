//! A frame in the making: its bytes, its edges and the fields that decide how it is read.

use crate::entry::Entry;

/// What a deciding field says.
#[derive(Clone, Copy, Debug, PartialEq, Eq)]
pub(crate) enum Role {
    /// The type in an Ethernet header or a tag.
    EtherType,
    /// The first byte of an IP header.
    Version,
    /// IPv4's total length.
    TotalLength,
    /// IPv6's payload length.
    PayloadLength,
    /// The word with the fragment offset and the more-fragments bit.
    Fragment,
    /// A protocol or next-header number.
    Number,
    /// The length byte of an extension.
    Units,
    /// UDP's length.
    UdpLength,
    /// The byte with TCP's data offset.
    DataOffset,
}

impl Role {
    /// How many bytes the field has.
    pub(crate) fn width(self) -> usize {
        match self {
            Role::Version | Role::Number | Role::Units | Role::DataOffset => 1,
            Role::EtherType
            | Role::TotalLength
            | Role::PayloadLength
            | Role::Fragment
            | Role::UdpLength => 2,
        }
    }
}

/// A deciding field and where it stands.
#[derive(Clone, Copy, Debug, PartialEq, Eq)]
pub(crate) struct Field {
    pub(crate) role: Role,
    pub(crate) at: usize,
}

/// A frame in the making.
#[derive(Clone, Debug)]
pub(crate) struct Draft {
    pub(crate) entry: Entry,
    pub(crate) bytes: Vec<u8>,
    /// Offsets where something begins, ends or has its least length.
    pub(crate) edges: Vec<usize>,
    pub(crate) fields: Vec<Field>,
}

impl Draft {
    /// An empty frame for an entry.
    pub(crate) fn new(entry: Entry) -> Draft {
        Draft {
            entry,
            bytes: Vec::new(),
            edges: vec![0],
            fields: Vec::new(),
        }
    }

    /// Where the next byte goes.
    pub(crate) fn at(&self) -> usize {
        self.bytes.len()
    }

    /// Adds a header; its least length and its end become edges.
    pub(crate) fn header(&mut self, bytes: &[u8], least: usize) {
        self.edges.push(self.at() + least);
        self.bytes.extend_from_slice(bytes);
        self.edges.push(self.at());
    }

    /// Adds bytes that no rule reads.
    pub(crate) fn fill(&mut self, bytes: &[u8]) {
        self.bytes.extend_from_slice(bytes);
        self.edges.push(self.at());
    }

    /// Marks a deciding field.
    pub(crate) fn field(&mut self, role: Role, at: usize) {
        self.fields.push(Field { role, at });
    }

    /// Writes a field's value, where the field still stands whole in the frame.
    pub(crate) fn set(&mut self, field: Field, value: u16) {
        let width = field.role.width();
        if let Some(place) = self.bytes.get_mut(field.at..field.at + width) {
            place.copy_from_slice(&value.to_be_bytes()[2 - width..]);
        }
    }

    /// A field's value; 0 where the field is no longer whole.
    pub(crate) fn get(&self, field: Field) -> u16 {
        match self.bytes.get(field.at..field.at + field.role.width()) {
            Some(&[byte]) => u16::from(byte),
            Some(&[high, low]) => u16::from_be_bytes([high, low]),
            _ => 0,
        }
    }

    /// The length field of the IP header and where that header begins, if there is one.
    pub(crate) fn ip_length(&self) -> Option<(Field, usize)> {
        self.fields.iter().find_map(|&field| match field.role {
            Role::TotalLength => Some((field, field.at - 2)),
            Role::PayloadLength => Some((field, field.at - 4)),
            _ => None,
        })
    }

    /// The value that the IP length field needs for the room to end at `end`, cut to 16 bits.
    pub(crate) fn length_to(&self, field: Field, end: usize) -> u16 {
        let begin = match field.role {
            Role::PayloadLength => field.at - 4 + 40,
            _ => field.at - 2,
        };
        end.saturating_sub(begin) as u16
    }
}
