//! By which ports a bridge sends frames: isolated ports, mirrors, static entries.
use crate::checks::equal;
use crate::switch::bridges::{customer_bridge, frame, leaves, set, station};
use etherpeel::ether_switch::{
    AcceptableFrames, Bridge, PortConfig, PortStates, StaticEntry, StationBucket, Vlan, VlanConfig,
};
use crate::kit::Abort;
use crate::kit::Fail;

const GROUP: [u8; 6] = [0x01, 0x00, 0x5E, 0x00, 0x00, 0x01];

/// A frame, and the ports through which it leaves. Ports 1 to 5 are members of VLAN 10, and frames leave by 4 and 5 with a
/// tag. The stations 01, 02 and 04 are at the ports of their numbers, and 20 is at port 5.
struct Row {
    name: &'static str,
    isolated: &'static [u8],
    mirrors: &'static [u8],
    from: u8,
    destination: [u8; 6],
    tagged: &'static [u8],
    untagged: &'static [u8],
}

static ROWS: [Row; 21] = [
    Row {
        name: "to a station that is not known",
        isolated: &[],
        mirrors: &[],
        from: 1,
        destination: [2, 0, 0, 0, 0, 0x09],
        tagged: &[4, 5],
        untagged: &[2, 3],
    },
    Row {
        name: "to all stations",
        isolated: &[],
        mirrors: &[],
        from: 4,
        destination: [0xFF; 6],
        tagged: &[5],
        untagged: &[1, 2, 3],
    },
    Row {
        name: "to a station at another port",
        isolated: &[],
        mirrors: &[],
        from: 1,
        destination: [2, 0, 0, 0, 0, 0x02],
        tagged: &[],
        untagged: &[2],
    },
    Row {
        name: "to a station behind a trunk",
        isolated: &[],
        mirrors: &[],
        from: 1,
        destination: [2, 0, 0, 0, 0, 0x04],
        tagged: &[4],
        untagged: &[],
    },
    Row {
        name: "to a station at the same port",
        isolated: &[],
        mirrors: &[],
        from: 1,
        destination: [2, 0, 0, 0, 0, 0x01],
        tagged: &[],
        untagged: &[],
    },
    Row {
        name: "from one isolated port",
        isolated: &[1, 2, 4],
        mirrors: &[],
        from: 1,
        destination: [2, 0, 0, 0, 0, 0x09],
        tagged: &[5],
        untagged: &[3],
    },
    Row {
        name: "from a port that is not isolated",
        isolated: &[1, 2, 4],
        mirrors: &[],
        from: 3,
        destination: [2, 0, 0, 0, 0, 0x09],
        tagged: &[4, 5],
        untagged: &[1, 2],
    },
    Row {
        name: "from one isolated port to a station at another one",
        isolated: &[1, 2],
        mirrors: &[],
        from: 1,
        destination: [2, 0, 0, 0, 0, 0x02],
        tagged: &[],
        untagged: &[],
    },
    Row {
        name: "to a station at an isolated port",
        isolated: &[1, 2],
        mirrors: &[],
        from: 3,
        destination: [2, 0, 0, 0, 0, 0x02],
        tagged: &[],
        untagged: &[2],
    },
    Row {
        name: "to all ports and a mirror, which is no member",
        isolated: &[],
        mirrors: &[6],
        from: 1,
        destination: [2, 0, 0, 0, 0, 0x09],
        tagged: &[4, 5, 6],
        untagged: &[2, 3],
    },
    Row {
        name: "to all ports, of which one is a mirror",
        isolated: &[],
        mirrors: &[2],
        from: 1,
        destination: [2, 0, 0, 0, 0, 0x09],
        tagged: &[2, 4, 5],
        untagged: &[3],
    },
    Row {
        name: "from a mirror",
        isolated: &[],
        mirrors: &[2],
        from: 2,
        destination: [2, 0, 0, 0, 0, 0x09],
        tagged: &[4, 5],
        untagged: &[1, 3],
    },
    Row {
        name: "to a station at another port, with two mirrors",
        isolated: &[],
        mirrors: &[6, 7],
        from: 1,
        destination: [2, 0, 0, 0, 0, 0x02],
        tagged: &[6, 7],
        untagged: &[2],
    },
    Row {
        name: "to a station at the same port, and a mirror",
        isolated: &[],
        mirrors: &[6],
        from: 1,
        destination: [2, 0, 0, 0, 0, 0x01],
        tagged: &[6],
        untagged: &[],
    },
    Row {
        name: "from one isolated port to another one, and an isolated mirror",
        isolated: &[1, 2, 6],
        mirrors: &[6],
        from: 1,
        destination: [2, 0, 0, 0, 0, 0x02],
        tagged: &[6],
        untagged: &[],
    },
    Row {
        name: "to a static entry of two ports, whatever was learned",
        isolated: &[],
        mirrors: &[],
        from: 1,
        destination: [2, 0, 0, 0, 0, 0x20],
        tagged: &[4],
        untagged: &[2],
    },
    Row {
        name: "to a static entry of two ports, from one of them",
        isolated: &[],
        mirrors: &[],
        from: 2,
        destination: [2, 0, 0, 0, 0, 0x20],
        tagged: &[4],
        untagged: &[],
    },
    Row {
        name: "to a static entry without ports",
        isolated: &[],
        mirrors: &[],
        from: 1,
        destination: [2, 0, 0, 0, 0, 0x21],
        tagged: &[],
        untagged: &[],
    },
    Row {
        name: "to a static entry of a port that is no member",
        isolated: &[],
        mirrors: &[],
        from: 1,
        destination: [2, 0, 0, 0, 0, 0x22],
        tagged: &[],
        untagged: &[],
    },
    Row {
        name: "to a static entry of another VLAN",
        isolated: &[],
        mirrors: &[],
        from: 1,
        destination: [2, 0, 0, 0, 0, 0x23],
        tagged: &[4, 5],
        untagged: &[2, 3],
    },
    Row {
        name: "to a group with a static entry",
        isolated: &[],
        mirrors: &[6],
        from: 1,
        destination: GROUP,
        tagged: &[5, 6],
        untagged: &[3],
    },
];

/// A static entry of VLAN 10.
fn entry(address: [u8; 6], ports: &[u8]) -> StaticEntry {
    StaticEntry {
        ports: set(ports),
        address,
        vid: 10,
    }
}

/// The static entries. Of two for one address the first counts.
fn entries() -> [StaticEntry; 6] {
    [
        entry(station(0x20), &[2, 4]),
        entry(station(0x20), &[3]),
        entry(station(0x21), &[]),
        entry(station(0x22), &[6]),
        StaticEntry {
            vid: 11,
            ..entry(station(0x23), &[3])
        },
        entry(GROUP, &[1, 3, 5]),
    ]
}

/// Fails if the row's frame leaves by other ports.
fn check<R: Abort>(
    rt: &R,
    row: &Row,
    table: &mut [StationBucket],
    vlans: &[VlanConfig],
    port: &PortConfig,
) {
    let entries = entries();
    let states = PortStates {
        learning: set(&[1, 2, 4, 5]),
        forwarding: set(&[1, 2, 3, 4, 5, 6, 7]),
        isolated: set(row.isolated),
        mirrors: set(row.mirrors),
    };
    let bridge = Bridge {
        static_entries: &entries,
        ..customer_bridge(&states, vlans)
    };
    for (at, last) in [(1, 1), (2, 2), (4, 4), (5, 0x20)] {
        let _ = bridge.receive(table, 0, at, port, &frame(station(0x30), station(last)));
    }
    let sent = frame(row.destination, station(0x40));
    let found = leaves(bridge.receive(table, 0, row.from, port, &sent));
    equal!(rt, row.name; found => Ok((set(row.tagged), set(row.untagged))));
}

#[test]
fn frames_leave_by_the_ports_that_may_send_them() -> Result<(), Fail> {
    let rt = crate::kit::HostRuntime;
    let port = PortConfig {
        frame_types: AcceptableFrames::All,
        ..PortConfig::access(Vlan::try_new(10)?)
    };
    let mut vlans = [VlanConfig::NONE; 11];
    vlans[10] = VlanConfig {
        members: set(&[1, 2, 3, 4, 5]),
        untagged: set(&[1, 2, 3]),
        first_bucket: 0,
        buckets: 8,
    };
    for row in &ROWS {
        let mut table = [StationBucket::EMPTY; 8];
        check(&rt, row, &mut table, &vlans, &port);
    }
    Ok(())
}
