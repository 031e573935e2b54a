//! What is known of a packet by its units.

use crate::EtherUnit;

/// What is known of a packet by its units.
#[derive(Clone, Copy)]
pub(crate) struct PacketFacts {
    /// The identifiers of the VLAN tags, outermost first, followed by zeros.
    pub(crate) vlan_ids: [u16; 3],
    /// The number of VLAN tags.
    pub(crate) vlan_count: u16,
    /// The greatest offset at which a unit ends.
    pub(crate) min_snap_len: usize,
}

/// What is known of a packet with these units. At most three of them are VLAN tags.
#[inline(always)]
pub(crate) fn packet_facts(units: &[EtherUnit]) -> PacketFacts {
    let mut vlan_ids = [0; 3];
    let mut vlan_count: u16 = 0;
    let mut min_snap_len = 0;
    for unit in units {
        if unit.kind == 3 {
            vlan_ids[usize::from(vlan_count)] = unit.vlan.vid;
            vlan_count += 1;
        }
        min_snap_len = reach(unit).max(min_snap_len);
    }
    PacketFacts {
        vlan_ids,
        vlan_count,
        min_snap_len,
    }
}

/// The offset at which a unit ends, with its payload if a SecTag gives the payload's length.
#[inline(always)]
fn reach(unit: &EtherUnit) -> usize {
    let ether_type_len = if unit.macsec.encrypted == 0 && unit.macsec.changed == 0 {
        2
    } else {
        0
    };
    if unit.macsec.short_len > ether_type_len {
        unit.payload_end
    } else {
        unit.payload_start
    }
}
