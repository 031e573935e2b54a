//! The constructors that etherparse has as `unsafe` ones. These check their values, since this crate has no `unsafe`.
//! An `unsafe` block around such a call is not needed, and the compiler warns of it.

use crate::{ArpHardwareId, ArpOperation, ArpPacket, EtherType, MacsecAn, MacsecShortLen, VlanId, VlanPcp};

impl VlanId {
    /// The identifier with that number. It needs the feature `compat`.
    ///
    /// # Panics
    ///
    /// If the number is more than [`MAX_U16`](Self::MAX_U16).
    #[must_use]
    pub const fn new_unchecked(value: u16) -> VlanId {
        match VlanId::try_new(value) {
            Ok(id) => id,
            Err(_) => panic!("the identifier of a VLAN is at most 4095"),
        }
    }
}

impl VlanPcp {
    /// The priority with that number. It needs the feature `compat`.
    ///
    /// # Panics
    ///
    /// If the number is more than [`MAX_U8`](Self::MAX_U8).
    #[must_use]
    pub const fn new_unchecked(value: u8) -> VlanPcp {
        match VlanPcp::try_new(value) {
            Ok(pcp) => pcp,
            Err(_) => panic!("the priority of a VLAN tag is at most 7"),
        }
    }
}

impl MacsecAn {
    /// The association number with that value. It needs the feature `compat`.
    ///
    /// # Panics
    ///
    /// If the value is more than [`MAX_U8`](Self::MAX_U8).
    #[must_use]
    pub const fn new_unchecked(value: u8) -> MacsecAn {
        match MacsecAn::try_new(value) {
            Ok(an) => an,
            Err(_) => panic!("the association number of a SecTag is at most 3"),
        }
    }
}

impl MacsecShortLen {
    /// The short length with that value. It needs the feature `compat`.
    ///
    /// # Panics
    ///
    /// If the value is more than [`MAX_U8`](Self::MAX_U8).
    #[must_use]
    pub const fn from_u8_unchecked(value: u8) -> MacsecShortLen {
        match MacsecShortLen::try_from_u8(value) {
            Ok(short_len) => short_len,
            Err(_) => panic!("the short length of a SecTag is at most 63"),
        }
    }
}

impl ArpPacket {
    /// An ARP packet. It needs the feature `compat`.
    ///
    /// # Panics
    ///
    /// Where [`new`](Self::new) returns an error.
    #[must_use]
    pub fn new_unchecked(
        hw_addr_type: ArpHardwareId,
        proto_addr_type: EtherType,
        operation: ArpOperation,
        sender_hw_addr: &[u8],
        sender_protocol_addr: &[u8],
        target_hw_addr: &[u8],
        target_protocol_addr: &[u8],
    ) -> ArpPacket {
        let packet = ArpPacket::new(
            hw_addr_type,
            proto_addr_type,
            operation,
            sender_hw_addr,
            sender_protocol_addr,
            target_hw_addr,
            target_protocol_addr,
        );
        match packet {
            Ok(packet) => packet,
            Err(error) => panic!("{error}"),
        }
    }
}
