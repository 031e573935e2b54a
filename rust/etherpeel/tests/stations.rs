//! Where a station is put in a table, which one leaves for it, and how many are found. Written by hand, for
//! `rust/faults.py`: in the sources proofs say it, but for how many are found. Of that `library_tests` tries less,
//! since an interpreter runs the sources of these tests.
use etherpeel::ether_switch::{
    Bridge, BridgeKind, Forgotten, PortConfig, PortSet, PortStates, Sighting, StationBucket, Vlan, VlanConfig, forget,
};

const KEY: [u64; 2] = [0x0706_0504_0302_0100, 0x0F0E_0D0C_0B0A_0908];
const ONES: [u64; 2] = [u64::MAX; 2];
const DRAWN: [u64; 2] = [0x9B05_7BD8_4C2A_61E3, 0x1F83_D9AB_FB41_BD6B];
const ALL: PortSet = PortSet { words: [u64::MAX; 4] };
/// The states of ports that learn, and do not forward.
static LEARNING: PortStates = PortStates { learning: ALL, ..PortStates::NONE };

/// VLAN 1, which has the first buckets of the table.
fn vlans(buckets: usize) -> [VlanConfig; 2] {
    [VlanConfig::NONE, VlanConfig { members: ALL, buckets: buckets as u32, ..VlanConfig::NONE }]
}

fn bridge(key: [u64; 2], vlans: &[VlanConfig]) -> Bridge<'_> {
    Bridge {
        kind: BridgeKind::Customer,
        ageing_time: Bridge::AGEING_TIME,
        key,
        ports: &LEARNING,
        vlans,
        static_entries: &[],
        forwarded: 0,
    }
}

fn vlan() -> Vlan {
    Vlan::try_new(1).unwrap()
}

fn bytes(address: u64) -> [u8; 6] {
    address.to_be_bytes()[2..].try_into().unwrap()
}

/// Receives a frame of a station.
fn learn(bridge: &Bridge, table: &mut [StationBucket], station: Sighting) {
    let mut frame = [0xFF; 14];
    frame[6..12].copy_from_slice(&bytes(station.address));
    frame[12..].copy_from_slice(&[0x08, 0x00]);
    let _ = bridge.receive(table, station.time, station.port, &PortConfig::access(vlan()), &frame);
}

/// A sighting of the station of this number.
fn seen(number: u64, time: u32, port: u8) -> Sighting {
    Sighting { address: 0x0200_0000_0000 + number, time, port }
}

fn places(bucket: &StationBucket) -> [Sighting; 4] {
    [bucket.first, bucket.second, bucket.third, bucket.fourth]
}

fn bucket([first, second, third, fourth]: [Sighting; 4]) -> StationBucket {
    StationBucket { first, second, third, fourth }
}

/// The places of a table that have another sighting than before, each with the index of its bucket.
fn changed(before: &[StationBucket], after: &[StationBucket]) -> Vec<(usize, usize)> {
    let all = (0..before.len()).flat_map(|at| (0..4).map(move |i| (at, i)));
    all.filter(|&(at, i)| places(&before[at])[i] != places(&after[at])[i]).collect()
}

#[test]
fn buckets_of_a_station() {
    // SipHash-1-3 of the six bytes of the address, the last one first, as the hasher of std computes it:
    // 0x9BF3BF71EE4D79EF, 0xDF2B795C8EEC21CF, 0xB756F5E21B19A90F, 0x87CE8115FB27A8ED
    for (key, address, buckets, first, second) in [
        ([0, 0], 0x0200_0000_0001, 4096, 1906, 3295),
        (ONES, 0x0200_0000_0002, 4096, 1143, 3833),
        (KEY, 0xFEDC_BA98_7654, 4096, 216, 3514),
        (DRAWN, 0x0242_0A00_0002, 4096, 2009, 3134),
        ([0, 0], 0x0200_0000_0001, 5, 2, 3),
        (KEY, 0xFEDC_BA98_7654, 5, 0, 4),
    ] {
        let (vlans, sent) = (vlans(buckets), Sighting { address, time: 0, port: 1 });
        let (bridge, mut table) = (bridge(key, &vlans), vec![StationBucket::EMPTY; buckets]);
        for (at, wanted) in [first, second].into_iter().enumerate() {
            let before = table.clone();
            learn(&bridge, &mut table, sent);
            assert_eq!(changed(&before, &table), [(wanted, 0)], "{address:#x} and the bucket {at}");
            assert_eq!(bridge.sighting(&table, vlan(), bytes(address)), Some(sent), "{address:#x} in the bucket {at}");
            table[wanted].first = seen(3, 0, 1); // so that the other bucket has fewer stations
        }
    }
}

/// A bucket with a station for each of the lowest four bits of `which`. Those whose bit is 0 have aged at 301 seconds.
fn some(first: u64, which: u32) -> StationBucket {
    bucket([0, 1, 2, 3].map(|i| seen(first + i, which >> i & 1, 1)))
}

#[test]
fn bucket_with_fewer_stations() {
    let vlans = vlans(2); // each station has both
    let bridge = bridge(KEY, &vlans);
    for number in 0..256u32 {
        let (one, other) = (number % 16, number / 16);
        let before = [some(10, one), some(20, other)];
        let mut table = before;
        learn(&bridge, &mut table, seen(1, 301, 2));
        let wanted = usize::from(other.count_ones() < one.count_ones());
        let changed = changed(&before, &table);
        assert!(changed.len() == 1 && changed[0].0 == wanted, "{one:04b} and {other:04b}: {changed:?}");
    }
}

#[test]
fn bucket_of_a_known_station() {
    let vlans = vlans(2);
    let bridge = bridge(KEY, &vlans);
    for (at, first) in [(0, 10), (1, 20)] {
        for i in 0..4 {
            let mut before = [some(10, 0), some(20, 0)];
            before[at] = some(first, 15); // the other bucket has no station that has not aged
            let mut table = before;
            learn(&bridge, &mut table, seen(first + i, 301, 2));
            assert_eq!(changed(&before, &table), [(at, i as usize)]);
        }
    }
}

#[test]
fn station_in_each_place() {
    let (vlans, full) = (vlans(1), [seen(1, 0, 1), seen(2, 0, 2), seen(3, 0, 3), seen(4, 0, 4)]);
    let (bridge, before) = (bridge(KEY, &vlans), [bucket(full)]);
    for (i, old) in full.into_iter().enumerate() {
        assert_eq!(bridge.sighting(&before, vlan(), bytes(old.address)), Some(old));
        let (mut table, again) = (before, Sighting { time: 1, port: 5, ..old });
        learn(&bridge, &mut table, again);
        assert_eq!((changed(&before, &table), places(&table[0])[i]), (vec![(0, i)], again));
    }
    assert_eq!(bridge.sighting(&before, vlan(), bytes(seen(5, 0, 0).address)), None);
}

#[test]
fn station_that_is_forgotten() {
    let full = [seen(1, 0, 1), seen(2, 0, 2), seen(3, 0, 3), seen(4, 0, 4)];
    for (i, old) in full.into_iter().enumerate() {
        for which in [Forgotten::Port(old.port), Forgotten::Station(bytes(old.address))] {
            let (mut table, mut wanted) = ([bucket(full); 2], full);
            forget(&mut table, which);
            wanted[i] = Sighting { address: 0, time: 0, port: 0 };
            assert_eq!([places(&table[0]), places(&table[1])], [wanted; 2], "{which:?}");
        }
    }
}

#[test]
fn address_of_no_station() {
    let vlans = vlans(1);
    let (bridge, group) = (bridge(KEY, &vlans), 0x0300_0000_0000);
    let at_port_1 = |address| Sighting { address, time: 0, port: 1 };
    let table = [bucket([0, group, 0x0200_0000_0001, 0x0200_0000_0002].map(at_port_1))];
    assert_eq!([bridge.sighting(&table, vlan(), [0; 6]), bridge.sighting(&table, vlan(), bytes(group))], [None; 2]);
}

#[test]
fn free_place() {
    let (vlans, full) = (vlans(1), [seen(1, 1, 1), seen(2, 1, 2), seen(3, 1, 3), seen(4, 1, 4)]);
    let bridge = bridge(KEY, &vlans);
    for i in 0..4 {
        let (aged, none) = (Sighting { time: 0, ..full[i] }, Sighting { address: 0, ..full[i] });
        for other in [aged, none] {
            let mut old = full;
            old[i] = other;
            let (before, mut table) = ([bucket(old)], [bucket(old)]);
            learn(&bridge, &mut table, seen(9, 301, 5));
            assert_eq!(changed(&before, &table), [(0, i)], "{other:?}");
        }
    }
}

#[test]
fn station_that_leaves() {
    let vlans = vlans(1);
    let bridge = bridge(KEY, &vlans);
    // the port and the time of each sighting in a full bucket, the port of a new one, and the place that it takes
    for (old, port, place) in [
        ([(1, 9), (1, 9), (1, 9), (1, 9)], 1, 0),
        ([(1, 1), (1, 2), (1, 3), (1, 4)], 2, 0),
        ([(1, 2), (1, 1), (1, 3), (1, 4)], 2, 1),
        ([(1, 3), (1, 2), (1, 1), (1, 4)], 2, 2),
        ([(1, 4), (1, 3), (1, 2), (1, 1)], 2, 3),
        ([(1, 9), (2, 1), (3, 2), (4, 3)], 1, 0),
        ([(1, 1), (2, 9), (3, 2), (4, 3)], 2, 1),
        ([(1, 1), (2, 2), (3, 9), (4, 3)], 3, 2),
        ([(1, 1), (2, 2), (3, 3), (4, 9)], 4, 3),
        ([(1, 1), (2, 2), (3, 3), (4, 4)], 5, 0),
        ([(1, 4), (2, 3), (3, 2), (4, 1)], 5, 3),
        ([(1, 1), (2, 9), (2, 8), (3, 1)], 4, 2),
        ([(1, 1), (2, 8), (2, 8), (3, 1)], 3, 3), // as many at port 3 with the new one, and older
        ([(1, 9), (2, 8), (2, 7), (3, 1)], 1, 2),
        ([(2, 1), (1, 9), (2, 1), (1, 8)], 1, 3),
        ([(1, 1), (2, 9), (2, 9), (2, 8)], 1, 3),
        ([(2, 9), (2, 8), (1, 1), (2, 9)], 1, 1),
    ] {
        let mut number = 0;
        let full = bucket(old.map(|(port, time)| {
            number += 1;
            seen(number, time, port)
        }));
        let mut table = [full];
        learn(&bridge, &mut table, seen(9, 10, port));
        assert_eq!(changed(&[full], &table), [(0, place)], "{old:?} and {port}");
        assert_eq!(places(&table[0])[place], seen(9, 10, port), "{old:?} and {port}");
    }
}

const BUCKETS: usize = 4096;
/// Three quarters of the places.
const STATIONS: u64 = 3 * BUCKETS as u64;

/// How many stations with these addresses are found after one frame of each, under a key.
fn found(key: [u64; 2], address: impl Fn(u64) -> u64) -> usize {
    let vlans = vlans(BUCKETS);
    let (bridge, mut table) = (bridge(key, &vlans), vec![StationBucket::EMPTY; BUCKETS]);
    for number in 0..STATIONS {
        learn(&bridge, &mut table, Sighting { address: address(number), time: 0, port: 1 });
    }
    (0..STATIONS).filter(|number| bridge.sighting(&table, vlan(), bytes(address(*number))).is_some()).count()
}

/// Fails if under a key not 99 of 100 stations are found.
fn check(name: &str, address: impl Fn(u64) -> u64) {
    for key in [[0, 0], ONES, KEY, DRAWN] {
        let found = found(key, &address);
        assert!(found as u64 * 100 >= STATIONS * 99, "{name}, key {key:?}: {found} of {STATIONS} are found");
    }
}

/// The address of the station of this number. Only the last five bytes of the first address change, so that none is
/// that of a group.
fn by_step(step: u64, number: u64) -> u64 {
    0x0200_0000_0000 + number * step % ((1 << 40) - 1)
}

#[test]
fn stations_by_a_power_of_two() {
    for bit in 0..40 {
        check(&format!("1 << {bit}"), |number| by_step(1 << bit, number));
    }
}

#[test]
fn stations_by_another_step() {
    for step in [3, 5, 7, 9, 0x41, 0xFF, 0x101, 0xFFF, 0x1001, 0xFFFF, 0x1_0001, 0x12_3456_789B] {
        check(&format!("{step:#x}"), |number| by_step(step, number));
    }
}

#[test]
fn stations_as_machines_are_numbered() {
    check("one container in each of 256 networks, then the next one in each", |number| {
        0x0242_0A00_0002 + number / 256 + number % 256 * 0x1_0000
    });
    check("250 containers in each network", |number| 0x0242_0A00_0002 + number / 250 * 0x1_0000 + number % 250);
    check("machines of a hypervisor", |number| 0x5254_0000_0000 + number);
    check("blades with 8 addresses each", |number| 0x0025_B500_0000 + number * 8);
    check("blades with 16 addresses each", |number| 0x0025_B500_0000 + number * 16);
    check("both ports of each of many cards", |number| 0x001B_2100_0000 + number / 2 * 4 + number % 2);
}
