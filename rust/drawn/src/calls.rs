//! What other calls say of a frame.
use crate::Drawn;
use crate::units::{digits, fault, rest};
use etherpeel::ether_packet::{PacketSlice, pop_vlan, push_vlan, replace_link_ext, set_vlan_id};
use etherpeel::ether_peel::{
    Start, Summary, completion, completion_limited, feed, feed_limited, snap, snap_limited, summary, summary_limited,
    write_back, write_back_limited,
};
use etherpeel::{LinkExtHeader, LinkExtSlice, SingleVlanHeader, VlanId, VlanPcp};
use std::fmt::Write;

/// The summary, the one of a cut, the headers written back, a completion, a feed, a packet, and changed VLAN tags.
pub fn all(d: &Drawn, out: &mut String) {
    let (start, frame) = (d.start, d.frame.as_slice());
    let mut target = vec![0x5A; frame.len() + 1];
    let (whole, cut, fed, fill, written) = match d.limit {
        None => (
            summary(start, frame),
            snap(start, frame, d.cut),
            feed(start, frame),
            completion(start, &frame[..d.cut]),
            write_back(start, frame, &mut target),
        ),
        Some(n) => (
            summary_limited(start, frame, n),
            snap_limited(start, frame, d.cut, n),
            feed_limited(start, frame, n),
            completion_limited(start, &frame[..d.cut], n),
            write_back_limited(start, frame, &mut target, n),
        ),
    };
    told(&whole, out);
    told(&cut, out);
    let _ = write!(out, "{} {}|", written.map_or(-1, |len| len as isize), digits(&target));
    let _ = write!(out, "{} {}|", fed.refusals, fed.taken);
    fault(fed.fault.as_ref(), out);
    completed(d, fill.as_deref(), out);
    packet(d, out);
    tags(d, out);
}

fn told(summary: &Summary, out: &mut String) {
    let _ = write!(out, "{} {} {} ", summary.units, summary.rest_start, summary.rest_end);
    rest(summary.kind, out);
    fault(summary.fault.as_ref(), out);
}

/// A completion, how many more units the cut frame has with it, and whether that is accepted.
fn completed(d: &Drawn, fill: Option<&[u8]>, out: &mut String) {
    if let Some(fill) = fill {
        let whole = [&d.frame[..d.cut], fill].concat();
        let (before, after) = match d.limit {
            None => (summary(d.start, &d.frame[..d.cut]), summary(d.start, &whole)),
            Some(n) => (summary_limited(d.start, &d.frame[..d.cut], n), summary_limited(d.start, &whole, n)),
        };
        let _ = write!(out, "{} {} {}", digits(fill), after.units - before.units, u8::from(after.fault.is_none()));
    }
    out.push('|');
}

/// The identifiers of the VLAN tags of a packet, its least cut, and the frame with each tag replaced by itself.
fn packet(d: &Drawn, out: &mut String) {
    let packet = PacketSlice::from_slice(d.start, &d.frame);
    for id in packet.vlan_ids() {
        let _ = write!(out, "{} ", id.value());
    }
    let mut same = d.frame.clone();
    for (index, ext) in packet.link_exts().iter().enumerate() {
        let header = match &ext.slice {
            LinkExtSlice::Vlan(tag) => LinkExtHeader::Vlan(tag.to_header()),
            LinkExtSlice::Macsec(tag) => LinkExtHeader::Macsec(tag.header.to_header()),
        };
        let _ = write!(out, "{}", u8::from(replace_link_ext(d.start, &mut same, index, &header).is_ok()));
    }
    let _ = write!(out, " {} {}|", packet.min_snap_len(), digits(&same));
}

/// A tag that is pushed, set to another identifier, and popped again.
fn tags(d: &Drawn, out: &mut String) {
    if let (Start::EtherType(_), _) | (_, Err(_)) = (d.start, VlanId::try_new(d.vid)) {
        return;
    }
    let vlan_id = VlanId::try_new(d.vid).unwrap_or_default();
    let tag = SingleVlanHeader { vlan_id, pcp: VlanPcp::ZERO, ..Default::default() };
    let mut buffer = [&[0; 4], d.frame.as_slice()].concat();
    let pushed = push_vlan(d.start, &mut buffer, tag, d.tpid);
    let _ = write!(out, "{} {}", u8::from(pushed.is_ok()), digits(&buffer));
    if pushed.is_ok() {
        let set = set_vlan_id(d.start, &mut buffer, 0, VlanId::try_new(4095 - d.vid).unwrap_or_default());
        let popped = pop_vlan(d.start, &mut buffer);
        let id = popped.map_or(0, |tag| tag.vlan_id.value());
        let _ = write!(out, " {} {id} {}", u8::from(set.is_ok()), digits(&buffer[4..]));
    }
}
