//! The authentication header (RFC 4302), which IPv4 and IPv6 share.

use crate::cursor::Cursor;
use crate::number::IpNumber;
use crate::refusal::{Reason, Refusal};
use crate::reply::Kind;

/// "AUTH 51 is (second byte + 2) x 4, at least 12 (RFC 4302), its zero test after the 12-byte test
/// and before the full length." Gives the next number.
pub(crate) fn read(cursor: &mut Cursor) -> Result<IpNumber, Refusal> {
    let fixed = cursor.need(Kind::Auth, 12)?;
    if fixed[1] == 0 {
        return Err(cursor.refuse(Kind::Auth, Reason::AuthLengthZero));
    }
    cursor.take(Kind::Auth, (usize::from(fixed[1]) + 2) * 4)?;
    Ok(IpNumber(fixed[0]))
}
