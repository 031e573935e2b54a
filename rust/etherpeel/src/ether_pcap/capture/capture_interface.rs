//! What a section of a pcapng file says of an interface, as far as its packets need it.

use crate::ether_pcap::{BodyError, ByteOrder, InterfaceDescription, LinkType, Timestamp};

/// What a section of a pcapng file says of an interface, as far as its packets need it.
#[cfg_attr(feature = "serde", derive(serde::Serialize, serde::Deserialize))]
#[derive(Clone, Copy, PartialEq, Eq, Hash, Debug)]
pub struct CaptureInterface {
    /// The link type of its packets.
    pub link_type: LinkType,
    /// The maximum number of bytes captured of a packet; 0 if there is no limit.
    pub snap_len: u32,
    /// The length in bytes of the frame check sequence at the end of each packet, if the option `if_fcslen` gives it.
    /// The values 16 and 32 of that option are read as bits, all others as bytes.
    pub fcs_len: Option<u8>,
    /// The value of the option `if_tsresol`, which gives the unit of times: 10^-n seconds for a value n below 128,
    /// else 2^-(n - 128) seconds. Without the option times are in microseconds.
    pub time_resolution: Option<u8>,
    /// The value of the option `if_tsoffset`, or 0: the seconds that are added to each time, in two's complement.
    pub time_offset: u64,
}

impl CaptureInterface {
    /// The interface that the body of an interface description describes.
    ///
    /// # Errors
    ///
    /// Those of [`InterfaceDescription::from_body`](crate::ether_pcap::InterfaceDescription::from_body).
    ///
    /// <details><summary>Contract</summary>
    ///
    /// ```text
    /// ensures interface { IfOk result (λ i. Describes (order_of byte_order) body.now (capture_interface_view i)) }
    /// ensures refused { IfErr result (λ e. RefusesInterface body.now (body_refusal_view e)) }
    /// ```
    ///
    /// Words: [`Describes`](crate::definitions::ether_pcap#def.Describes),
    /// [`order_of`](crate::definitions::ether_pcap#def.order_of),
    /// [`capture_interface_view`](crate::definitions::ether_pcap#def.capture_interface_view),
    /// [`RefusesInterface`](crate::definitions::ether_pcap#def.RefusesInterface),
    /// [`body_refusal_view`](crate::definitions::ether_pcap#def.body_refusal_view).
    /// [Notation](crate::definitions::notation)
    ///
    /// </details>
    #[inline]
    pub fn from_body(byte_order: ByteOrder, body: &[u8]) -> Result<CaptureInterface, BodyError> {
        let description = InterfaceDescription::from_body(byte_order, body)?;
        Ok(CaptureInterface {
            link_type: description.link_type,
            snap_len: description.snap_len,
            fcs_len: in_bytes(description.fcs_len()),
            time_resolution: description.time_resolution(),
            time_offset: description.time_offset().unwrap_or(0),
        })
    }

    /// The time of a packet whose block counts this many ticks on the interface. `None` if that is before 1970, or if
    /// its seconds do not fit in 64 bits.
    ///
    /// <details><summary>Contract</summary>
    ///
    /// ```text
    /// ensures { option_map timestamp_view result ≡ time_on (capture_interface_view self.now) ticks }
    /// ```
    ///
    /// Words: [`timestamp_view`](crate::definitions::ether_pcap#def.timestamp_view),
    /// [`time_on`](crate::definitions::ether_pcap#def.time_on),
    /// [`capture_interface_view`](crate::definitions::ether_pcap#def.capture_interface_view).
    /// [Notation](crate::definitions::notation)
    ///
    /// </details>
    #[must_use]
    #[inline]
    pub fn time(&self, ticks: u64) -> Option<Timestamp> {
        let time = time(units(self.time_resolution), ticks);
        match shifted(self.time_offset, time.seconds) {
            Some(seconds) => Some(Timestamp {
                seconds,
                nanoseconds: time.nanoseconds,
            }),
            None => None,
        }
    }
}

/// Reads 32 and 16 as numbers of bits, and any other number as one of bytes.
#[inline]
fn in_bytes(number: Option<u8>) -> Option<u8> {
    match number {
        Some(32) => Some(4),
        Some(16) => Some(2),
        _ => number,
    }
}

/// Adds an offset in two's complement to seconds. `None` if the sum is negative or does not fit in 64 bits.
#[inline]
fn shifted(offset: u64, seconds: u64) -> Option<u64> {
    let (sum, is_over) = seconds.overflowing_add(offset);
    if is_over == (offset >= 1 << 63) {
        Some(sum)
    } else {
        None
    }
}

impl Default for CaptureInterface {
    #[inline]
    fn default() -> CaptureInterface {
        CaptureInterface {
            link_type: LinkType::ETHERNET,
            snap_len: 0,
            fcs_len: None,
            time_resolution: None,
            time_offset: 0,
        }
    }
}

/// Ticks per second, for the value of `if_tsresol` if there is one.
#[inline]
fn units(time_resolution: Option<u8>) -> u128 {
    match time_resolution {
        None => 1_000_000,
        Some(resolution) => power(resolution),
    }
}

/// Ticks per second for an `if_tsresol` value. Powers of ten are capped at 29: from there on every 64-bit tick count
/// is below one nanosecond.
#[inline]
fn power(resolution: u8) -> u128 {
    if resolution < 128 {
        10u128.pow(u32::from(resolution.min(29)))
    } else {
        2u128.pow(u32::from(resolution - 128))
    }
}

/// The time that `ticks` are, at this many ticks per second.
#[inline]
fn time(units: u128, ticks: u64) -> Timestamp {
    let ticks = u128::from(ticks);
    Timestamp {
        seconds: (ticks / units) as u64,
        nanoseconds: (ticks % units * 1_000_000_000 / units) as u32,
    }
}
