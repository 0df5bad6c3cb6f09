//! What the compiler must find of the public types: that they can be sent to and shared with other threads, that refusals are
//! errors, and that the iterators end for good.
use bhirkulom::{
    count, headers, tcp_option, tcp_options, Entry, HeaderSlice, Headers, Kind, Layer, NetSlice, Number, OptionKind,
    OptionReason, OptionRefusal, PartSlice, Reason, Refusal, SlicedPacket, Source, Stop, Sum16BitWords, Tags, TcpOption,
    TcpOptionsIterator,
};
use std::error::Error;
use std::fmt::{Debug, Display};
use std::hash::Hash;
use std::iter::FusedIterator;
use std::panic::{RefUnwindSafe, UnwindSafe};

const fn shared<T: Debug + Send + Sync + Unpin + UnwindSafe + RefUnwindSafe>() {}
const fn compared<T: Copy + Eq + Hash>() {}
const fn error<T: Error + Copy + Send + Sync + 'static>() {}
const fn displayed<T: Display>() {}
const fn fused<T: FusedIterator + Clone>() {}
const fn counted<T: ExactSizeIterator>() {}

macro_rules! each {
    ($($asked:ident: $($type:ty),+;)+) => { $($(const _: () = $asked::<$type>();)+)+ };
}

each! {
    shared: Entry, HeaderSlice<'_>, Headers<'_>, Kind, Layer, NetSlice<'_>, Number, OptionKind, OptionReason, OptionRefusal,
        PartSlice<'_>, Reason, Refusal, SlicedPacket<'_>, Source, Stop, Sum16BitWords, Tags<'_>, TcpOption<'_>,
        TcpOptionsIterator<'_>;
    compared: Entry, HeaderSlice<'_>, Kind, Layer, NetSlice<'_>, Number, OptionKind, OptionReason, OptionRefusal, PartSlice<'_>,
        Reason, Refusal, SlicedPacket<'_>, Source, Stop, Sum16BitWords, Tags<'_>, TcpOption<'_>;
    error: Refusal, OptionRefusal;
    displayed: Kind, Layer, Number, Source, Stop;
    fused: Headers<'_>, TcpOptionsIterator<'_>;
    counted: Headers<'_>;
}

/// `?` takes a refusal into a boxed error, as programs with several kinds of error have it.
#[test]
fn boxed() {
    fn both(frame: &[u8], options: &[u8]) -> Result<usize, Box<dyn Error + Send + Sync>> {
        tcp_option(options, 0)?;
        Ok(count(Entry::Ethernet, frame)?)
    }
    assert_eq!(both(&[0; 14], &[1]).unwrap(), 1);
    let said = both(&[0; 13], &[1]).unwrap_err().to_string();
    assert_eq!(said, "refused 1 ethernet2 0 required 14 have 13 source slice");
    assert_eq!(both(&[0; 14], &[2]).unwrap_err().to_string(), "refused 8 option 0");
}

#[test]
fn lengths_of_lists() {
    // two tags, the second naming a type that isn't opened
    let mut frame = [0; 22];
    frame[12] = 0x81;
    frame[16] = 0x81;
    let mut listed = headers(Entry::Ethernet, &frame);
    assert_eq!(listed.len(), 3);
    listed.next();
    assert_eq!(listed.len(), 2);
    assert_eq!(listed.by_ref().count(), 2);
    assert!(listed.next().is_none());
    let mut refused = headers(Entry::Ethernet, &frame[..13]);
    assert_eq!(refused.len(), 1);
    assert!(refused.next().is_some_and(|header| header.is_err()));
    assert_eq!(refused.len(), 0);
    assert!(refused.next().is_none());
    let mut options = tcp_options(&[1, 2]);
    assert!(options.next().is_some_and(|option| option.is_ok()));
    assert!(options.next().is_some_and(|option| option.is_err()));
    assert!(options.next().is_none() && options.next().is_none());
}

#[test]
fn words() {
    let mut frame = [0; 18];
    frame[12] = 0x81;
    let packet = SlicedPacket::from_ethernet(&frame).unwrap();
    let mut tags = Vec::new();
    for tag in &packet.tags {
        tags.push((tag.kind.to_string(), tag.offset));
    }
    assert_eq!(tags, [("vlan".to_string(), 14)]);
    assert_eq!(packet.number.to_string(), "ether-type 0x0000");
    assert_eq!((packet.stop.number(), packet.stop.to_string()), (1, "an EtherType that is not opened".to_string()));
    assert_eq!(format!("{:>6}|{:<8}|", Source::Udp, Layer::UdpPayload), "   udp|udp-payload|");
}
