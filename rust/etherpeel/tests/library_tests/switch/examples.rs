//! The examples of the documentation.
use crate::checks::equal;
use crate::switch::bridges::{customer_bridge, forwarding, leaves, set, station, untagged_vlan};
use etherpeel::ether_switch::{
    AcceptableFrames, Forgotten, PortConfig, PortSet, StationBucket, Vlan, VlanConfig, VlanError,
    forget,
};
use crate::kit::Abort;
use crate::kit::Fail;

#[test]
fn a_request_leaves_a_trunk_with_its_tag() -> Result<(), Fail> {
    let rt = crate::kit::HostRuntime;
    let vlan = Vlan::try_new(10)?;
    let states = forwarding(&[1, 2]);
    let mut vlans = [VlanConfig::NONE; 11];
    vlans[10] = VlanConfig {
        members: set(&[1, 2]),
        untagged: PortSet::only(1),
        first_bucket: 0,
        buckets: 64,
    };
    let bridge = customer_bridge(&states, &vlans);
    let mut table = [StationBucket::EMPTY; 64];
    let mut buffer = *b"____\xFF\xFF\xFF\xFF\xFF\xFF\x02\x00\x00\x00\x00\x01\x08\x06\x00";
    let tagged = *b"\xFF\xFF\xFF\xFF\xFF\xFF\x02\x00\x00\x00\x00\x01\x81\x00\x00\x0A\x08\x06\x00";
    let port = PortConfig::access(vlan);
    let received = match bridge.receive(&mut table, 0, 1, &port, &buffer[4..]) {
        Ok(received) => received,
        Err(reason) => panic!("a request: discarded: {reason:?}"),
    };
    let at = received.make_tagged(&mut buffer);
    equal!(rt, "by the trunk, with a tag";
        received.tagged => PortSet::only(2),
        received.untagged => PortSet::NONE,
        at => Some(0),
        buffer => tagged,
    );
    Ok(())
}

#[test]
fn a_station_is_forgotten_after_the_ageing_time() -> Result<(), Fail> {
    let rt = crate::kit::HostRuntime;
    let port = PortConfig::access(Vlan::try_new(10)?);
    let request = b"\xFF\xFF\xFF\xFF\xFF\xFF\x02\x00\x00\x00\x00\x01\x08\x06";
    let reply = b"\x02\x00\x00\x00\x00\x01\x02\x00\x00\x00\x00\x02\x08\x06";
    let states = forwarding(&[1, 2, 3]);
    let mut vlans = [VlanConfig::NONE; 11];
    vlans[10] = untagged_vlan(&[1, 2, 3], 0, 64);
    let bridge = customer_bridge(&states, &vlans);
    let mut table = [StationBucket::EMPTY; 64];
    let first = bridge.receive(&mut table, 0, 1, &port, request);
    let second = bridge.receive(&mut table, 300, 2, &port, reply);
    let third = bridge.receive(&mut table, 301, 2, &port, reply);
    equal!(rt, "a request, and two replies";
        leaves(first) => Ok((PortSet::NONE, set(&[2, 3]))),
        leaves(second) => Ok((PortSet::NONE, set(&[1]))),
        leaves(third) => Ok((PortSet::NONE, set(&[1, 3]))),
    );
    Ok(())
}

#[test]
fn an_empty_table_stays_empty_when_it_forgets() -> Result<(), Fail> {
    let rt = crate::kit::HostRuntime;
    let mut table = [StationBucket::EMPTY; 8];
    forget(&mut table, Forgotten::Port(1));
    let mut vlans = [VlanConfig::NONE; 2];
    vlans[1] = untagged_vlan(&[1], 0, 8);
    let states = forwarding(&[1]);
    let bridge = customer_bridge(&states, &vlans);
    let found = bridge.sighting(&table, Vlan::try_new(1)?, station(1));
    equal!(rt, "of 8 buckets"; found => None);
    Ok(())
}

#[test]
fn a_vlan_is_a_number_from_1_to_4094() -> Result<(), Fail> {
    let rt = crate::kit::HostRuntime;
    equal!(rt, "the last one, 0 and 4095";
        Vlan::try_new(4094)?.id().value() => 4094,
        Vlan::try_new(0) => Err(VlanError(0)),
        Vlan::try_new(4095) => Err(VlanError(4095)),
    );
    Ok(())
}

#[test]
fn ports_for_stations_and_for_bridges_refuse_what_they_should_not_get() -> Result<(), Fail> {
    let rt = crate::kit::HostRuntime;
    let (access, trunk) = (PortConfig::access(Vlan::try_new(10)?), PortConfig::trunk());
    equal!(rt, "an access port";
        access.pvid.id().value() => 10,
        access.frame_types => AcceptableFrames::OnlyUntagged,
        access.refuses_second_tag => true,
        access.ingress_filtering => true,
    );
    equal!(rt, "a trunk";
        trunk.pvid.id().value() => 1,
        trunk.frame_types => AcceptableFrames::OnlyVlanTagged,
        trunk.refuses_second_tag => true,
        trunk.ingress_filtering => true,
    );
    Ok(())
}

#[test]
fn a_set_of_ports_has_those_that_were_put_in() -> Result<(), Fail> {
    let rt = crate::kit::HostRuntime;
    let mut own = set(&[0, 63, 64, 255]);
    let other = set(&[63, 100]);
    equal!(rt, "the ports 0, 63, 64 and 255, and another set";
        own.words => [0x8000_0000_0000_0001, 1, 0, 0x8000_0000_0000_0000],
        own.contains(64) => true,
        own.contains(65) => false,
        own.union(&other) => set(&[0, 63, 64, 100, 255]),
        own.intersection(&other) => PortSet::only(63),
        own.difference(&other) => set(&[0, 64, 255]),
    );
    own.remove(63);
    own.remove(1);
    equal!(rt, "without 63"; own => set(&[0, 64, 255]));
    Ok(())
}
