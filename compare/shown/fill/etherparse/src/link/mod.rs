// Ours, not etherparse's: the list of link modules, shown and filled in; its own isn't shown.

mod ether_payload_slice;
pub use ether_payload_slice::*;

mod ether_type_impl;
pub use ether_type_impl::*;

// shown
mod ethernet2_header;
pub use ethernet2_header::*;

mod ethernet2_slice;
pub use ethernet2_slice::*;

mod link_slice;
pub use link_slice::*;

mod linux_sll_slice;
pub use linux_sll_slice::*;

mod macsec_slice;
pub use macsec_slice::*;

// shown
mod single_vlan_header;
pub use single_vlan_header::*;

mod single_vlan_slice;
pub use single_vlan_slice::*;
