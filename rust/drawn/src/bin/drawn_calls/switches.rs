//! The switch.
use crate::draw::Draw;
use crate::frames::{Frame, add, add_all, add_drawn, add_u16};
use crate::text::{Text, WithText};
use etherpeel::ether_switch::{
    AcceptableFrames, Bridge, BridgeKind, Forgotten, PortConfig, PortSet, PortStates, Received,
    StaticEntry, StationBucket, Vlan, VlanConfig, forget, parts_are_in_order,
};
use etherpeel::VlanPcp;
use std::fmt;

/// Calls the switch with some frames after each other.
pub(crate) fn calls(draw: &mut Draw, text: &mut Text) -> fmt::Result {
    sets(draw, text)?;
    let vlans = [
        VlanConfig::NONE,
        drawn_vlan(draw, 0),
        drawn_vlan(draw, 5),
        drawn_vlan(draw, 8),
    ];
    text.add(&(&vlans, &parts_are_in_order(&vlans)))?;
    let states = drawn_states(draw);
    let entries = [StaticEntry {
        ports: drawn_set(draw),
        address: address(draw),
        vid: draw.short() % 4,
    }];
    let kind = if draw.one_in(4) {
        BridgeKind::Provider
    } else {
        BridgeKind::Customer
    };
    let bridge = Bridge {
        kind,
        ageing_time: if draw.one_in(4) {
            5
        } else {
            Bridge::AGEING_TIME
        },
        key: [draw.next(), draw.next()],
        ports: &states,
        vlans: &vlans,
        static_entries: &entries,
        forwarded: draw.short() & draw.short(),
    };
    text.add(&(&bridge, &kind.tpid()))?;
    passed(draw, &bridge, text)
}

fn sets(draw: &mut Draw, text: &mut Text) -> fmt::Result {
    let (a, b, port) = (drawn_set(draw), drawn_set(draw), draw.byte());
    let mut c = PortSet::only(port);
    text.add(&(&a.intersection(&b), &a.union(&b), &a.difference(&b)))?;
    c.insert(draw.byte() % 9);
    c.remove(draw.byte() % 9);
    text.add(&(&c, &c.contains(port), &a.contains(port % 9)))?;
    let id = draw.small_u16();
    match Vlan::try_new(id) {
        Ok(vlan) => {
            text.add(&(&vlan, &vlan.id(), &PortConfig::access(vlan)))?;
            text.add(&PortConfig::trunk())
        }
        Err(error) => text.add(&WithText(&error)),
    }
}

/// A set of ports, most of them of the first eight.
fn drawn_set(draw: &mut Draw) -> PortSet {
    let mut set = PortSet::NONE;
    for _ in 0..10u8 {
        set.insert(draw.byte() % 8);
    }
    if draw.one_in(4) {
        set.insert(draw.byte());
    }
    set
}

fn drawn_vlan(draw: &mut Draw, first_bucket: u32) -> VlanConfig {
    VlanConfig {
        members: drawn_set(draw),
        untagged: drawn_set(draw).intersection(&drawn_set(draw)),
        first_bucket,
        buckets: draw.below(6) as u32,
    }
}

fn drawn_states(draw: &mut Draw) -> PortStates {
    let all = drawn_set(draw).union(&drawn_set(draw));
    let few = drawn_set(draw)
        .intersection(&drawn_set(draw))
        .intersection(&drawn_set(draw));
    PortStates {
        learning: all,
        forwarding: drawn_set(draw).union(&all),
        isolated: few,
        mirrors: few.intersection(&drawn_set(draw)),
    }
}

fn drawn_port(draw: &mut Draw) -> PortConfig {
    let pvid = match Vlan::try_new(1 + draw.short() % 3) {
        Ok(vlan) => vlan,
        Err(_) => return PortConfig::trunk(),
    };
    PortConfig {
        frame_types: match draw.below(6) {
            0 => AcceptableFrames::OnlyVlanTagged,
            1 => AcceptableFrames::OnlyUntaggedAndPriorityTagged,
            2 => AcceptableFrames::OnlyUntagged,
            _ => AcceptableFrames::All,
        },
        refuses_second_tag: draw.one_in(4),
        ingress_filtering: draw.one_in(3),
        default_priority: VlanPcp::try_new(draw.byte() % 8).unwrap_or(VlanPcp::ZERO),
        ..PortConfig::access(pvid)
    }
}

/// An address: of one of a few stations, of a group, or a reserved one.
fn address(draw: &mut Draw) -> [u8; 6] {
    match draw.below(16) {
        0 => [0xFF; 6],
        1 => [1, 0, 0x5E, 0, 0, 1],
        2 => [0x01, 0x80, 0xC2, 0, 0, draw.byte() % 18],
        3 => [0; 6],
        _ => [2, 0, 0, 0, 0, draw.byte() % 24],
    }
}

fn drawn_frame(draw: &mut Draw) -> Frame {
    let mut frame = Frame::new();
    add_all(&mut frame, &address(draw));
    add_all(&mut frame, &address(draw));
    let tags = draw.below(3);
    for _ in 0..tags {
        add_u16(&mut frame, if draw.one_in(4) { 0x88A8 } else { 0x8100 });
        add(&mut frame, draw.byte() & 0xF0);
        add(&mut frame, draw.byte() % 5);
    }
    add_u16(&mut frame, 0x0800);
    let len = draw.below(8);
    add_drawn(draw, &mut frame, len);
    if draw.one_in(12) {
        frame.truncate(draw.below(20));
    }
    frame
}

fn passed(draw: &mut Draw, bridge: &Bridge<'_>, text: &mut Text) -> fmt::Result {
    let mut table = [StationBucket::EMPTY; 12];
    let mut now = 0u32;
    for _ in 0..16u8 {
        now = now.saturating_add(if draw.one_in(6) { 301 } else { draw.word() % 4 });
        let (frame, from, port) = (drawn_frame(draw), draw.byte() % 8, drawn_port(draw));
        match bridge.receive(&mut table, now, from, &port, frame.as_slice()) {
            Ok(received) => sent(&received, frame.as_slice(), text)?,
            Err(discarded) => text.add(&WithText(&discarded))?,
        }
        if let Ok(vlan) = Vlan::try_new(1 + draw.short() % 3) {
            text.add(&bridge.sighting(&table, vlan, address(draw)))?;
        }
        if draw.one_in(8) {
            forget(&mut table, forgotten(draw));
        }
    }
    text.add(&table)
}

fn forgotten(draw: &mut Draw) -> Forgotten {
    match draw.below(4) {
        0 => Forgotten::All,
        1 => Forgotten::Port(draw.byte() % 8),
        _ => Forgotten::Station(address(draw)),
    }
}

/// The forms in which a frame leaves.
fn sent(received: &Received, frame: &[u8], text: &mut Text) -> fmt::Result {
    text.add(&received)?;
    let mut tagged = [0u8; 64];
    for (byte, target) in frame.iter().zip(tagged.iter_mut().skip(4)) {
        *target = *byte;
    }
    let mut untagged = tagged;
    let end = (frame.len() + 4).min(64);
    text.add(&received.make_tagged(&mut tagged[..end]))?;
    text.add(&received.make_untagged(&mut untagged[..end]))?;
    text.add(&(&tagged, &untagged))
}
