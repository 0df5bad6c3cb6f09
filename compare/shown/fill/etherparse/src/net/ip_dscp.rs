// Ours, not etherparse's: fills in `IpDscp`, which the shown IP headers hold.

crate::helpers::field!(IpDscp, u8, "The six bits of RFC 2474.");
