//! Of walks, whole packets, filters and lines.
use super::Returned;
use crate::text::Text;
use etherpeel::ether_fields::{Extent, Field, FieldPlace, Kind, Part, Section, Sizes};
use etherpeel::ether_filter::{
    Decision, FieldTest, Filter, FilterError, FilterErrorKind, Instruction, Node, Operator, Packet,
    PacketTime, Primitive, Relation,
};
use etherpeel::ether_format::{Columns, Format};
use etherpeel::ether_output::OutputFault;
use etherpeel::ether_packet::{
    BuildError, Difference, EthernetFront, PacketBuilder, PacketContent, PacketExt, PacketParts,
    PacketSlice, ReplaceError, TagError,
};
use etherpeel::ether_peel::{Feed, Peel, PeelError, PeelFault, PeelUnit, RestKind, Start, Summary};

fields! {
    PeelFault { offset, error, closed }
    Feed { refusals, taken, fault }
    Summary { units, rest_start, rest_end, kind, fault }
    EthernetFront { link, vlan }
    PacketBuilder<'_, '_> { link, link_exts, content }
    PacketExt<'_> { offset, slice }
    FilterError { offset, kind }
    FieldTest { field, first, count, relation, mask, len, value }
    Packet<'_> { start, frame, captured_len, original_len, time }
    PacketTime { seconds, nanoseconds }
    Field {
        name, key, column, title, abbreviation, kind, extent, number, symbol, is_member, is_column,
    }
    FieldPlace { number, first, len }
    Sizes { hardware, protocol, has_sci, has_payload_type }
}

methods! {
    Peel<'_> { rest, offset, closed, bound, kind }
    Filter { instructions }
    Instruction { node }
}

variants! {
    PeelError { 0 Len(it), 1 LinuxSll(it), 2 Macsec(it) }
    PeelUnit<'_> { 0 Ethernet2(it), 1 LinuxSll(it), 2 Vlan(it), 3 Macsec(it), 4 Arp(it) }
    RestKind { 0 Start, 1 EtherType(it), 2 Sll(it), 3 Sealed, 4 AfterArp }
    Start { 0 Ethernet2, 1 Ethernet2Fcs, 2 LinuxSll, 3 EtherType(it) }
    BuildError { 0 HardwareType(it), 1 Sealed(it), 2 Space(it) }
    Difference {
        0 Kind, 1 EtherType, 2 HardwareType, 3 ProtocolType, 4 PayloadType, 5 ShortLen, 6 Sci,
        7 HwAddrLen, 8 ProtocolAddrLen,
    }
    PacketContent<'_> { 0 Payload(a, b), 1 Arp(it) }
    ReplaceError { 0 NoLink, 1 NoLinkExt(it), 2 NoArp, 3 SaysOther(it) }
    TagError {
        0 Tpid(it), 1 NoRoom, 2 NoLink, 3 HardwareType(it), 4 NoLinkExt(it), 5 NoVlan, 6 CutVlan,
        7 Unannounced,
    }
    Decision { 0 Matches, 1 Fails, 2 Needs(it) }
    FilterErrorKind {
        0 ExpectedOperand, 1 ExpectedOperator, 2 ExpectedVlanIdOrOperator, 3 ExpectedVlan,
        4 ExpectedEtherWord, 5 ExpectedAddress, 6 ExpectedNumber(it), 7 ExpectedRelation,
        8 ExpectedRelationOrOperator, 9 ExpectedBytes(it), 10 ExpectedAnyBytes, 11 ExpectedSet,
        12 ExpectedSetEnd, 13 MixedOperators, 14 Unopened, 15 Unclosed, 16 TooLong,
        17 ExpectedTime, 18 ExpectedHeader,
    }
    Operator { 0 And, 1 Or }
    Node { 0 Test(it), 1 Not, 2 Join(it) }
    Primitive {
        0 Vlan, 1 VlanId(it), 2 OuterVlan(it), 3 InnerVlan(it), 4 Macsec, 5 EtherType(it),
        6 Source(it), 7 Destination(it), 8 Host(it), 9 Broadcast, 10 Multicast, 11 Refused, 12 Cut,
        13 Less(it), 14 Greater(it), 15 Field(it), 16 Frame(it),
    }
    Relation { 0 Exists, 1 Equal, 2 NotEqual, 3 Less, 4 AtMost, 5 Greater, 6 AtLeast }
    Extent {
        0 Computed, 1 Bits(it), 2 HardwareAddress, 3 ProtocolAddress, 4 SecureChannel,
        5 PayloadType, 6 CheckSequence,
    }
    Kind {
        0 Number, 1 Flag, 2 Truth, 3 EtherType, 4 HardwareType, 5 PacketType, 6 Operation,
        7 LinkType, 8 Bytes, 9 ProtocolAddress, 10 Word, 11 Time,
    }
    Part { 0 Header(it), 1 Trailer }
    Section { 0 Frame, 1 Eth, 2 Sll, 3 Sll2, 4 Vlan, 5 Macsec, 6 Arp, 7 Headers, 8 Rest, 9 Fault }
    Format { 0 Json, 1 Brief, 2 Fields(it), 3 Csv(it), 4 JsonBytes }
}

impl Returned for PacketSlice<'_> {
    fn add_to(&self, text: &mut Text) {
        (self.link(), self.link_exts(), self.arp()).add_to(text);
        (self.rest, self.rest_offset, self.rest_kind, self.fault).add_to(text);
    }
}

impl Returned for PacketParts<'_> {
    fn add_to(&self, text: &mut Text) {
        (&self.link, self.link_exts(), &self.arp).add_to(text);
        (self.ether_type, self.rest, self.trailer).add_to(text);
    }
}

impl Returned for Columns {
    fn add_to(&self, text: &mut Text) {
        self.after_original().add_to(text);
    }
}

impl Returned for OutputFault {
    fn add_to(&self, text: &mut Text) {
        text.number(0);
    }
}
