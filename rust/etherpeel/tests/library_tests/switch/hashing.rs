//! How many stations a part of the table holds, whose addresses follow a pattern.
use crate::switch::bridges::{address, customer_bridge, forwarding, frame, untagged_vlan};
use etherpeel::ether_switch::{Bridge, PortConfig, StationBucket, Vlan, VlanConfig};
use crate::kit::Abort;
use crate::kit::Fail;

/// Addresses that come one after the other: `in_a_row` of them with one step, then again as many, with another step
/// from the first ones. Sums are taken modulo 2^40 - 1 in the last five bytes, so that steps of a high bit give many
/// addresses, too.
#[derive(Clone, Copy)]
struct Pattern {
    name: &'static str,
    first: u64,
    in_a_row: u64,
    step: u64,
    other_step: u64,
}

static PATTERNS: [Pattern; 6] = [
    Pattern {
        name: "one container in each of 256 networks, then the next one in each",
        first: 0x0242_0A00_0002,
        in_a_row: 256,
        step: 0x1_0000,
        other_step: 1,
    },
    Pattern {
        name: "250 containers in each network",
        first: 0x0242_0A00_0002,
        in_a_row: 250,
        step: 1,
        other_step: 0x1_0000,
    },
    Pattern {
        name: "machines of a hypervisor",
        first: 0x5254_0000_0000,
        in_a_row: 1 << 24,
        step: 1,
        other_step: 0,
    },
    Pattern {
        name: "blades with 8 addresses each",
        first: 0x0025_B500_0000,
        in_a_row: 1 << 24,
        step: 8,
        other_step: 0,
    },
    Pattern {
        name: "blades with 16 addresses each",
        first: 0x0025_B500_0000,
        in_a_row: 1 << 24,
        step: 16,
        other_step: 0,
    },
    Pattern {
        name: "both ports of each of many cards",
        first: 0x001B_2100_0000,
        in_a_row: 2,
        step: 1,
        other_step: 4,
    },
];

/// Steps from one address to the next.
static STEPS: [u64; 40] = [
    1 << 0,
    1 << 1,
    1 << 2,
    1 << 3,
    1 << 4,
    1 << 5,
    1 << 6,
    1 << 7,
    1 << 8,
    1 << 9,
    1 << 10,
    1 << 11,
    1 << 12,
    1 << 13,
    1 << 14,
    1 << 15,
    1 << 16,
    1 << 18,
    1 << 20,
    1 << 22,
    1 << 24,
    1 << 26,
    1 << 28,
    1 << 30,
    1 << 32,
    1 << 34,
    1 << 36,
    1 << 38,
    1 << 39,
    3,
    5,
    7,
    9,
    0x41,
    0xFF,
    0x101,
    0xFFF,
    0x1001,
    0x1_0001,
    0x0012_3456_789B,
];

/// The keys, of which the last is drawn.
static KEYS: [[u64; 2]; 3] = [
    [0, 0],
    [0xFFFF_FFFF_FFFF_FFFF, 0xFFFF_FFFF_FFFF_FFFF],
    [0xADE8_1E1D_97DF_7DA6, 0x5D9D_5536_13E9_336D],
];

/// The address at a place of a pattern.
fn address_at(pattern: &Pattern, place: u64) -> [u8; 6] {
    let (row, column) = (place / pattern.in_a_row, place % pattern.in_a_row);
    let moved = row * pattern.other_step + column * pattern.step;
    let last_bytes = pattern.first % (1 << 40) + moved % ((1 << 40) - 1);
    address(pattern.first / (1 << 40) * (1 << 40) + last_bytes % ((1 << 40) - 1))
}

/// Learns as many stations of a pattern, in an empty table.
fn fill(
    bridge: &Bridge,
    table: &mut [StationBucket],
    vlan: Vlan,
    pattern: &Pattern,
    stations: u64,
) {
    table.fill(StationBucket::EMPTY);
    let port = PortConfig::access(vlan);
    for place in 0..stations {
        let sent = frame([0xFF; 6], address_at(pattern, place));
        let _ = bridge.receive(table, 0, 1, &port, &sent);
    }
}

/// How many of them are found.
fn found(
    bridge: &Bridge,
    table: &[StationBucket],
    vlan: Vlan,
    pattern: &Pattern,
    stations: u64,
) -> u64 {
    let mut found = 0;
    for place in 0..stations {
        if bridge
            .sighting(table, vlan, address_at(pattern, place))
            .is_some()
        {
            found += 1;
        }
    }
    found
}

/// Fails if under a key not 99 of 100 stations are found, with three quarters as many of them as the table has places.
fn check<R: Abort>(
    rt: &R,
    pattern: &Pattern,
    key: [u64; 2],
    table: &mut [StationBucket],
    vlan: Vlan,
) {
    let states = forwarding(&[1, 2]);
    let mut vlans = [VlanConfig::NONE; 2];
    vlans[1] = untagged_vlan(&[1, 2], 0, table.len() as u32);
    let bridge = Bridge {
        key,
        ..customer_bridge(&states, &vlans)
    };
    let stations = 3 * table.len() as u64;
    fill(&bridge, table, vlan, pattern, stations);
    let found = found(&bridge, table, vlan, pattern, stations);
    if found * 100 < stations * 99 {
        let (name, step) = (pattern.name, pattern.step);
        panic!("{name}, by {step}, key {key:?}: {found} of {stations} are found")
    }
}

/// The key for the row of this number. Each key has a third of the rows.
fn key_for(row: usize) -> [u64; 2] {
    KEYS[row % 3]
}

/// Fails if stations of a pattern are not found.
fn check_patterns<R: Abort>(rt: &R, table: &mut [StationBucket], vlan: Vlan) {
    for i in 0..PATTERNS.len() {
        check(rt, &PATTERNS[i], key_for(i), table, vlan);
    }
}

/// Fails if stations are not found whose addresses are a step apart.
fn check_steps<R: Abort>(rt: &R, table: &mut [StationBucket], vlan: Vlan) {
    for i in 0..STEPS.len() {
        let pattern = Pattern {
            name: "steps",
            first: 0x0200_0000_0000,
            in_a_row: 1 << 24,
            step: STEPS[i],
            other_step: 0,
        };
        check(rt, &pattern, key_for(i), table, vlan);
    }
}

#[test]
fn a_part_of_1024_buckets_finds_99_of_100_stations_by_steps() -> Result<(), Fail> {
    let rt = crate::kit::HostRuntime;
    let mut table = [StationBucket::EMPTY; 1024];
    check_steps(&rt, &mut table, Vlan::try_new(1)?);
    Ok(())
}

#[test]
fn a_part_of_1024_buckets_finds_99_of_100_machines() -> Result<(), Fail> {
    let rt = crate::kit::HostRuntime;
    let mut table = [StationBucket::EMPTY; 1024];
    check_patterns(&rt, &mut table, Vlan::try_new(1)?);
    Ok(())
}

#[test]
fn a_part_of_4096_buckets_finds_99_of_100_machines() -> Result<(), Fail> {
    let rt = crate::kit::HostRuntime;
    let mut table = [StationBucket::EMPTY; 4096];
    check_patterns(&rt, &mut table, Vlan::try_new(1)?);
    Ok(())
}
