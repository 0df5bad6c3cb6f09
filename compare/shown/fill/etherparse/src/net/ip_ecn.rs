// Ours, not etherparse's: fills in `IpEcn`, which the shown IP headers hold.

crate::helpers::field!(IpEcn, u8, "The two bits of RFC 3168.");
