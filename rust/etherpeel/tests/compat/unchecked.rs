//! The constructors that are `unsafe` in etherparse.

use etherpeel::{ArpHardwareId, ArpOperation, ArpPacket, EtherType, MacsecAn, MacsecShortLen, VlanId, VlanPcp};
use std::panic::catch_unwind;

#[test]
fn in_constants() {
    const ID: VlanId = VlanId::new_unchecked(4095);
    const PCP: VlanPcp = VlanPcp::new_unchecked(7);
    const AN: MacsecAn = MacsecAn::new_unchecked(3);
    const SHORT_LEN: MacsecShortLen = MacsecShortLen::from_u8_unchecked(63);
    assert_eq!((ID.value(), PCP.value(), AN.value(), SHORT_LEN.value()), (4095, 7, 3, 63));
}

#[test]
fn greater_values_panic() {
    assert!(catch_unwind(|| VlanId::new_unchecked(4096)).is_err());
    assert!(catch_unwind(|| VlanPcp::new_unchecked(8)).is_err());
    assert!(catch_unwind(|| MacsecAn::new_unchecked(4)).is_err());
    assert!(catch_unwind(|| MacsecShortLen::from_u8_unchecked(64)).is_err());
}

#[test]
fn arp() {
    let new = |target_hw_addr: &[u8]| {
        let (hardware, protocol) = (ArpHardwareId::ETHERNET, EtherType::IPV4);
        let (sender, ip) = ([2, 0, 0, 0, 0, 1], [10, 0, 0, 1]);
        ArpPacket::new_unchecked(hardware, protocol, ArpOperation::REQUEST, &sender, &ip, target_hw_addr, &ip)
    };
    assert_eq!(new(&[0; 6]).packet_len(), 28);
    assert!(catch_unwind(|| new(&[0; 5])).is_err());
}
