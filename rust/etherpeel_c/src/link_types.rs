//! How the walk of packets of a link type starts.

/// The number of the start for a link type, 0 if there is none.
///
/// <details><summary>Contract</summary>
///
/// ```text
/// ensures { result ≡ link_type_start link_type }
/// ```
///
/// </details>
#[unsafe(no_mangle)]
pub extern "C" fn etherpeel_start_of_link_type(link_type: u32) -> u32 {
    match link_type {
        1 => 1,
        113 => 3,
        _ => 0,
    }
}
