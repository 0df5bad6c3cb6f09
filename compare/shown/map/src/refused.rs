//! The crate's errors as refusals: lengths with all that they carry, content by number and value.

use crate::answer::{Layer, Refused};
use etherparse::err::{self, packet::SliceError, LenError};
use etherparse::LenSource;
use oracle::{Kind, Layer as Of, Source};

/// The refusal that an error of the cursor is.
pub(crate) fn refused(error: SliceError) -> Refused {
    let (number, value) = match error {
        SliceError::Len(error) => return too_short(&error),
        SliceError::Ipv4(err::ipv4::HeaderError::UnexpectedVersion { version_number }) => {
            (2, Some(version_number))
        }
        SliceError::Ipv4(err::ipv4::HeaderError::HeaderLengthSmallerThanHeader { ihl })
        | SliceError::Ip(err::ip::HeaderError::Ipv4HeaderLengthSmallerThanHeader { ihl }) => {
            (3, Some(ihl))
        }
        SliceError::Ipv6(err::ipv6::HeaderError::UnexpectedVersion { version_number }) => {
            (4, Some(version_number))
        }
        SliceError::Ipv6Exts(err::ipv6_exts::HeaderError::HopByHopNotAtStart) => (5, None),
        // two names of the crate, one refusal
        SliceError::Ipv4Exts(err::ip_auth::HeaderError::ZeroPayloadLen)
        | SliceError::Ipv6Exts(err::ipv6_exts::HeaderError::IpAuth(
            err::ip_auth::HeaderError::ZeroPayloadLen,
        )) => (6, None),
        SliceError::Tcp(err::tcp::HeaderError::DataOffsetTooSmall { data_offset }) => {
            (7, Some(data_offset))
        }
        // document 02, No. 1
        SliceError::Ip(err::ip::HeaderError::UnsupportedIpVersion { version_number }) => {
            (11, Some(version_number))
        }
        SliceError::LinuxSll(never) => match never {},
        SliceError::Macsec(never) => match never {},
    };
    Refused::Content { number, value }
}

fn too_short(error: &LenError) -> Refused {
    Refused::TooShort {
        layer: layer(error.layer),
        offset: error.layer_start_offset,
        required: error.required_len,
        have: error.len,
        source: source(error.len_source),
    }
}

fn layer(layer: err::Layer) -> Layer {
    use err::Layer::*;
    let kind = match layer {
        Ethernet2Header => Kind::Ethernet2,
        VlanHeader => Kind::Vlan,
        Ipv4Header => Kind::Ipv4,
        Ipv6Header => Kind::Ipv6,
        IpAuthHeader => Kind::Auth,
        Ipv6FragHeader => Kind::Fragment,
        UdpHeader => Kind::Udp,
        TcpHeader => Kind::Tcp,
        Ipv4Packet => return Layer::Of(Of::Ipv4Packet),
        Ipv6Packet => return Layer::Of(Of::Ipv6Packet),
        UdpPayload => return Layer::Of(Of::UdpPayload),
        Ipv6ExtHeader | Ipv6HopByHopHeader | Ipv6DestOptionsHeader | Ipv6RouteHeader => {
            return Layer::RawExtension;
        }
        IpHeader => return Layer::Ip,
        other => unreachable!("the stubs refuse nothing: {other:?}"),
    };
    Layer::Of(Of::Header(kind))
}

fn source(source: LenSource) -> Source {
    match source {
        LenSource::Slice => Source::Slice,
        LenSource::Ipv4HeaderTotalLen => Source::Ipv4,
        LenSource::Ipv6HeaderPayloadLen => Source::Ipv6,
        LenSource::UdpHeaderLen => Source::Udp,
        LenSource::MacsecShortLength => unreachable!("the MACsec stub sets no length"),
    }
}
