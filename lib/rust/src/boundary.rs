//! The boundary to the proved library: its structs, its functions, and the only unsafe code of this crate.
//!
//! The structs are those of crates/exports/src/handed.rt. What each number is stands in
//! crates/exports/specs/Handed.antt, which the contracts of the functions cite. `bin/check-interface` holds this file
//! and the C header against both.

use std::sync::atomic::{AtomicBool, Ordering};

/// The version of the interface that this crate is written for.
pub const INTERFACE: usize = 2;

/// How many tags a packet has room for.
pub const TAG_LIMIT: usize = 3;

/// Statuses: accepted or there, no more, refused. The fourth, for a number that no entry has, can't be met from here.
pub const THERE: usize = 0;
pub const NO_MORE: usize = 1;
pub const REFUSED: usize = 2;

/// What the number is that names the payload. Where no frame was accepted it is 0.
pub const ETHER_TYPE: usize = 1;
pub const IP_NUMBER: usize = 2;

#[repr(C)]
#[derive(Clone, Copy, Debug)]
pub struct Span {
    pub at: usize,
    pub len: usize,
}

#[repr(C)]
#[derive(Clone, Copy, Debug)]
pub struct Head {
    pub kind: usize,
    pub at: usize,
    pub len: usize,
}

#[repr(C)]
#[derive(Clone, Copy, Debug)]
pub struct Row {
    pub number: usize,
    pub layer: usize,
    pub offset: usize,
    pub values: [usize; 3],
}

#[repr(C)]
#[derive(Clone, Copy, Debug)]
pub struct Net {
    pub header: Head,
    pub exts: Span,
    pub fragmented: bool,
}

#[repr(C)]
#[derive(Clone, Copy, Debug)]
pub struct Packet {
    pub status: usize,
    pub link: Head,
    pub count: usize,
    pub tags: [Span; TAG_LIMIT],
    pub net: Net,
    pub transport: Head,
    pub payload: Span,
    pub number: usize,
    pub numbering: usize,
    pub stop: usize,
    pub refusal: Row,
}

#[repr(C)]
#[derive(Clone, Copy, Debug)]
pub struct HeaderReply {
    pub status: usize,
    pub header: Head,
    pub refusal: Row,
}

#[repr(C)]
#[derive(Clone, Copy, Debug)]
pub struct CountReply {
    pub status: usize,
    pub count: usize,
    pub refusal: Row,
}

#[repr(C)]
#[derive(Clone, Copy, Debug)]
pub struct OptionRow {
    pub number: usize,
    pub offset: usize,
}

#[repr(C)]
#[derive(Clone, Copy, Debug)]
pub struct OptionReply {
    pub status: usize,
    pub kind: usize,
    pub at: usize,
    pub len: usize,
    pub refusal: OptionRow,
    pub known: bool,
}

// the sizes that the C header states too
const _: () = {
    assert!(std::mem::size_of::<Packet>() == 248);
    assert!(std::mem::size_of::<HeaderReply>() == 80);
    assert!(std::mem::size_of::<CountReply>() == 64);
    assert!(std::mem::size_of::<OptionReply>() == 56);
};

extern "C" {
    fn bhirkulom_interface() -> usize;
    fn bhirkulom_slice(frame: *const u8, len: usize, entry: usize) -> Packet;
    fn bhirkulom_header(frame: *const u8, len: usize, entry: usize, k: usize) -> HeaderReply;
    fn bhirkulom_count(frame: *const u8, len: usize, entry: usize) -> CountReply;
    fn bhirkulom_headers(frame: *const u8, len: usize, entry: usize, k: usize, heads: *mut usize, room: usize) -> CountReply;
    fn bhirkulom_option(bytes: *const u8, len: usize, k: usize) -> OptionReply;
    fn bhirkulom_sum_add(sum: u16, bytes: *const u8, len: usize) -> u16;
    fn bhirkulom_sum_answer(sum: u16) -> u16;
    fn bhirkulom_sum_answer_no_zero(sum: u16) -> u16;
}

// Every unsafe block below is sound for one reason: the function has no `requires`. Its proof covers any bytes and any
// numbers, and it reads only the `len` bytes from the pointer, writes to none and keeps no pointer. A Rust slice lends
// exactly such bytes: its pointer isn't null, its `len` bytes are initialised and nobody writes them for the call. Numbers
// that are lent to be written come as a `&mut` slice, which nobody else reads or writes for the call.

static KNOWN: AtomicBool = AtomicBool::new(false);

/// Panics where the archive that was linked is of another interface: its structs would be read wrong. Asked once; a call apart, so that
/// those that come after pay for a load alone.
#[cold]
#[inline(never)]
fn compare() {
    // SAFETY: no memory is lent, and a number is returned
    let theirs = unsafe { bhirkulom_interface() };
    assert!(theirs == INTERFACE, "libbhirkulom.a is of interface {theirs}, and this crate is written for {INTERFACE}: run lib/build");
    KNOWN.store(true, Ordering::Relaxed);
}

#[inline(always)]
fn linked() {
    if !KNOWN.load(Ordering::Relaxed) {
        compare();
    }
}

pub fn slice(frame: &[u8], entry: usize) -> Packet {
    linked();
    // SAFETY: pointer and length are one slice's, and any entry number gets an answer
    unsafe { bhirkulom_slice(frame.as_ptr(), frame.len(), entry) }
}

pub fn header(frame: &[u8], entry: usize, k: usize) -> HeaderReply {
    linked();
    // SAFETY: pointer and length are one slice's, and any entry number and any k get an answer
    unsafe { bhirkulom_header(frame.as_ptr(), frame.len(), entry, k) }
}

pub fn count(frame: &[u8], entry: usize) -> CountReply {
    linked();
    // SAFETY: pointer and length are one slice's, and any entry number gets an answer
    unsafe { bhirkulom_count(frame.as_ptr(), frame.len(), entry) }
}

/// The headers from number k on, three numbers each, as many as there is room for, and zeros behind them; zeros alone where no frame
/// was accepted. What was in the lent numbers plays no part.
pub fn headers(frame: &[u8], entry: usize, k: usize, heads: &mut [usize]) -> CountReply {
    linked();
    // SAFETY: each pointer and its length are one slice's, and any entry number and any k get an answer
    unsafe { bhirkulom_headers(frame.as_ptr(), frame.len(), entry, k, heads.as_mut_ptr(), heads.len()) }
}

pub fn option(bytes: &[u8], k: usize) -> OptionReply {
    linked();
    // SAFETY: pointer and length are one slice's, and any k gets an answer
    unsafe { bhirkulom_option(bytes.as_ptr(), bytes.len(), k) }
}

pub fn sum_add(sum: u16, bytes: &[u8]) -> u16 {
    // SAFETY: pointer and length are one slice's, and every number of 16 bits is a sum
    unsafe { bhirkulom_sum_add(sum, bytes.as_ptr(), bytes.len()) }
}

pub fn sum_answer(sum: u16) -> u16 {
    // SAFETY: no memory is lent, and every number of 16 bits is a sum
    unsafe { bhirkulom_sum_answer(sum) }
}

pub fn sum_answer_no_zero(sum: u16) -> u16 {
    // SAFETY: no memory is lent, and every number of 16 bits is a sum
    unsafe { bhirkulom_sum_answer_no_zero(sum) }
}
