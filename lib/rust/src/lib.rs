//! Bhirkulom: a slicer of captured network frames, proved in Rattle, for Rust programs.
//!
//! The API reads like that of the crate etherparse. Any bytes of any length get an answer: the parts of an
//! accepted frame, or the one [`Refusal`], which names its reason, its layer and its offset.
//!
//! ```
//! use bhirkulom::{Kind, Number, SlicedPacket, Stop};
//!
//! // one tag, IPv4 of total length 32, UDP of length 12, zeros up to 60 bytes
//! let mut frame = [0; 60];
//! frame[12..14].copy_from_slice(&[0x81, 0x00]);
//! frame[16..18].copy_from_slice(&[0x08, 0x00]);
//! frame[18] = 0x45;
//! frame[21] = 32;
//! frame[27] = 17;
//! frame[43] = 12;
//!
//! let packet = SlicedPacket::from_ethernet(&frame)?;
//! assert_eq!(packet.link.unwrap().slice, &frame[..14]);
//! assert_eq!(packet.tags.len(), 1);
//! assert_eq!(packet.tags[0].offset, 14);
//! let net = packet.net.unwrap();
//! assert_eq!((net.header.kind, net.header.offset), (Kind::Ipv4, 18));
//! assert!(net.exts.slice.is_empty() && !net.fragmented);
//! let transport = packet.transport.unwrap();
//! assert_eq!((transport.kind, transport.offset), (Kind::Udp, 38));
//! // the ten zeros behind the total length are no samples
//! assert_eq!((packet.payload.offset, packet.payload.slice.len()), (46, 4));
//! assert_eq!((packet.number, packet.stop), (Number::Ip(17), Stop::TransportRead));
//! # Ok::<(), bhirkulom::Refusal>(())
//! ```
//!
//! A refused frame says why, in the words of the program `slice_frame`:
//!
//! ```
//! use bhirkulom::{Kind, Layer, Reason, SlicedPacket, Source};
//!
//! // IPv4 of total length 60, of which 46 bytes are there
//! let mut frame = [0; 60];
//! frame[12..14].copy_from_slice(&[0x08, 0x00]);
//! frame[14] = 0x45;
//! frame[17] = 60;
//!
//! let refusal = SlicedPacket::from_ethernet(&frame).unwrap_err();
//! assert_eq!((refusal.layer, refusal.offset), (Layer::Ipv4Packet, 14));
//! assert_eq!(refusal.reason, Reason::TooShort { required: 60, have: 46, source: Source::Slice });
//! assert_eq!(refusal.to_string(), "refused 1 ipv4-packet 14 required 60 have 46 source slice");
//!
//! // the first byte 0x54: the version is tested before the IHL
//! let refusal = SlicedPacket::from_ipv4(&[0x54; 20]).unwrap_err();
//! assert_eq!((refusal.layer, refusal.reason), (Layer::Header(Kind::Ipv4), Reason::Ipv4Version(5)));
//! ```
//!
//! Headers by number, TCP options and the checksum: [`header`], [`headers`], [`count`], [`tcp_options`],
//! [`Sum16BitWords`].
//!
//! No function panics, whatever the bytes; the first call panics where the linked archive is of another interface. The answers come from the archive of the proved library (`lib/build` makes
//! it); the crate turns its numbers into types, and offsets and lengths into slices of the frame. That every part lies
//! inside the frame, and that no other number is handed over than those that have a variant here, is proved.
#![deny(unsafe_code)]
#![deny(missing_docs)]

#[allow(unsafe_code)]
mod boundary;
mod checksum;
mod header;
mod options;
mod packet;
mod refusal;

pub use checksum::Sum16BitWords;
pub use header::{count, header, headers, Entry, HeaderSlice, Headers, Kind};
pub use options::{tcp_option, tcp_options, OptionKind, OptionReason, OptionRefusal, TcpOption, TcpOptionsIterator};
pub use packet::{NetSlice, Number, PartSlice, SlicedPacket, Stop, Tags, TAG_LIMIT};
pub use refusal::{Layer, Reason, Refusal, Source};
