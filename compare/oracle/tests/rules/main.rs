//! The tests of the oracle: document 01's frames, its list of errors, every length test's edges.

mod bench;
mod checksum;
mod extension_edges;
mod frames;
mod ip_edges;
mod link_edges;
mod options;
mod print;
mod questions;
mod tired_hand;
mod transport_edges;
