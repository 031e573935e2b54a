//! Written by hand: the numbers of the protocols without an ether type, from Linux' `if_ether.h`, for `rust/faults.py`,
//! since in the sources a proof says them; and constants that call functions, which Rattle has not.
use etherpeel::LinuxNonstandardEtherType as L;
use etherpeel::err::{Layer, LenError, linux_sll, macsec};
use etherpeel::{ArpEthIpv4Packet, ArpOperation, LenSource, MacsecAn, MacsecShortLen, VlanId, VlanPcp};

#[test]
fn nonstandard_ether_types() {
    for (constant, number) in [
        (L::N802_3, 0x01),
        (L::AX25, 0x02),
        (L::ALL, 0x03),
        (L::N802_2, 0x04),
        (L::SNAP, 0x05),
        (L::DDCMP, 0x06),
        (L::WAN_PPP, 0x07),
        (L::PPP_MP, 0x08),
        (L::LOCALTALK, 0x09),
        (L::CAN, 0x0C),
        (L::CANFD, 0x0D),
        (L::CANXL, 0x0E),
        (L::PPPTALK, 0x10),
        (L::TR_802_2, 0x11),
        (L::MOBITEX, 0x15),
        (L::CONTROL, 0x16),
        (L::IRDA, 0x17),
        (L::ECONET, 0x18),
        (L::HDLC, 0x19),
        (L::ARCNET, 0x1A),
        (L::DSA, 0x1B),
        (L::TRAILER, 0x1C),
        (L::PHONET, 0xF5),
        (L::IEEE802154, 0xF6),
        (L::CAIF, 0xF7),
        (L::XDSA, 0xF8),
        (L::MAP, 0xF9),
        (L::MCTP, 0xFA),
    ] {
        assert_eq!(u16::from(constant), number);
        assert_eq!(L::try_from(number), Ok(constant));
    }
}

#[test]
fn functions_in_constants() {
    const ID: Option<u16> = if let Ok(id) = VlanId::try_new(291) { Some(id.value()) } else { None };
    const PCP: Option<u8> = if let Ok(pcp) = VlanPcp::try_new(7) { Some(pcp.value()) } else { None };
    const AN: bool = MacsecAn::try_new(4).is_err();
    const SHORT_LEN: bool = MacsecShortLen::try_from_u8(64).is_err();
    assert_eq!((ID, PCP, AN, SHORT_LEN), (Some(291), Some(7), true, true));

    const ERROR: LenError = LenError {
        required_len: 4,
        len: 2,
        len_source: LenSource::Slice,
        layer: Layer::VlanHeader,
        layer_start_offset: 0,
    };
    const MOVED: LenError = ERROR.add_offset(14);
    const SLL: linux_sll::HeaderSliceError = linux_sll::HeaderSliceError::Len(ERROR).add_slice_offset(14);
    const MACSEC: macsec::HeaderSliceError = macsec::HeaderSliceError::Len(ERROR).add_slice_offset(14);
    assert_eq!(MOVED.layer_start_offset, 14);
    assert_eq!(SLL, linux_sll::HeaderSliceError::Len(MOVED));
    assert_eq!(MACSEC, macsec::HeaderSliceError::Len(MOVED));

    const ARP: ArpEthIpv4Packet = ArpEthIpv4Packet {
        operation: ArpOperation(1),
        sender_mac: [2, 0, 0, 0, 0, 1],
        sender_ipv4: [10, 0, 0, 1],
        target_mac: [0; 6],
        target_ipv4: [10, 0, 0, 2],
    };
    const BYTES: [u8; 28] = ARP.to_bytes();
    const TARGET: std::net::Ipv4Addr = ARP.target_ipv4_addr();
    assert_eq!(BYTES[..16], [0, 1, 8, 0, 6, 4, 0, 1, 2, 0, 0, 0, 0, 1, 10, 0]);
    assert_eq!(TARGET, std::net::Ipv4Addr::new(10, 0, 0, 2));
}
