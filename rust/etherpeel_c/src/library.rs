//! What a program can ask of its library, to find out whether the two fit.

use crate::{
    EtherArp, EtherBridge, EtherCaptureEnd, EtherCaptured, EtherEthernet2, EtherFault, EtherFed,
    EtherField, EtherFilter, EtherFilterError, EtherFound, EtherFrame, EtherHeaders,
    EtherInterface, EtherLinuxSll, EtherLinuxSll2, EtherMacsec, EtherOption, EtherPort,
    EtherReadUnit, EtherReader, EtherReceived, EtherReplaceError, EtherRow, EtherUnit, EtherVlan,
};
use etherpeel::ether_switch::{PortSet, PortStates, Sighting, StaticEntry, StationBucket, VlanConfig};

/// The version of the library: 0x10000 times the major number, plus 0x100 times the minor number, plus the patch
/// number.
///
/// <details><summary>Contract</summary>
///
/// ```text
/// ensures { result ≡ version_number 3 0 0 }
/// ```
///
/// </details>
#[unsafe(no_mangle)]
pub extern "C" fn etherpeel_version() -> u32 {
    0x03_00_00
}

/// The size in bytes of the struct with this number, 0 if no struct has it.
///
/// <details><summary>Contract</summary>
///
/// ```text
/// ensures { result ≡ struct_size number }
/// ```
///
/// </details>
#[unsafe(no_mangle)]
pub extern "C" fn etherpeel_sizeof(number: u32) -> usize {
    match number {
        1 => size_of::<EtherFault>(),
        2 => size_of::<EtherFound>(),
        3 => size_of::<EtherFed>(),
        4 => size_of::<EtherEthernet2>(),
        5 => size_of::<EtherLinuxSll>(),
        6 => size_of::<EtherVlan>(),
        7 => size_of::<EtherMacsec>(),
        8 => size_of::<EtherArp>(),
        9 => size_of::<EtherUnit>(),
        10 => size_of::<EtherHeaders>(),
        11 => size_of::<EtherCaptured<'_>>(),
        12 => size_of::<EtherCaptureEnd>(),
        13 => size_of::<EtherFilterError>(),
        14 => size_of::<EtherFrame<'_>>(),
        15 => size_of::<EtherField>(),
        16 => size_of::<EtherLinuxSll2>(),
        17 => size_of::<EtherReplaceError>(),
        18 => size_of::<EtherFilter>(),
        19 => size_of::<EtherPort>(),
        20 => size_of::<EtherReceived>(),
        21 => size_of::<Sighting>(),
        22 => size_of::<StationBucket>(),
        23 => size_of::<PortSet>(),
        24 => size_of::<VlanConfig>(),
        25 => size_of::<PortStates>(),
        26 => size_of::<StaticEntry>(),
        27 => size_of::<EtherBridge<'_>>(),
        28 => size_of::<EtherReader>(),
        29 => size_of::<EtherInterface>(),
        30 => size_of::<EtherReadUnit>(),
        31 => size_of::<EtherRow>(),
        32 => size_of::<EtherOption<'_>>(),
        _ => 0,
    }
}
