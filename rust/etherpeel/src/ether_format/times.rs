//! Writes the time of a packet, and its minute, hour or day. The date is computed here, where it is written.

use crate::ether_format::interval::Interval;
use crate::ether_format::spelling::{write_interval, write_json_moment, write_moment, write_quoted_interval};
use crate::ether_format::values::moment_if;
use crate::ether_output::{OutputBuffer, Sink};
use crate::ether_pcap::Timestamp;

/// Writes a time as a column has it, if there is one.
#[inline(never)]
pub(in crate::ether_format) fn write_time<W: Sink>(time: Option<Timestamp>, out: &mut OutputBuffer<'_, W>) {
    if let Some(moment) = &moment_if(time) {
        write_moment(moment, out);
    }
}

/// Writes an interval of a time as a column has it, if there is one.
#[inline(never)]
pub(in crate::ether_format) fn write_time_interval<W: Sink>(
    interval: Interval,
    time: Option<Timestamp>,
    out: &mut OutputBuffer<'_, W>,
) {
    if let Some(moment) = &moment_if(time) {
        write_interval(interval, moment, out);
    }
}

/// Writes a time as a value of JSON.
#[inline(never)]
pub(in crate::ether_format) fn write_json_time<W: Sink>(time: Option<Timestamp>, out: &mut OutputBuffer<'_, W>) {
    match &moment_if(time) {
        Some(moment) => write_json_moment(moment, out),
        None => out.append(b"null"),
    }
}

/// Writes an interval of a time as a value of JSON.
#[inline(never)]
pub(in crate::ether_format) fn write_json_interval<W: Sink>(
    interval: Interval,
    time: Option<Timestamp>,
    out: &mut OutputBuffer<'_, W>,
) {
    match &moment_if(time) {
        Some(moment) => write_quoted_interval(interval, moment, out),
        None => out.append(b"null"),
    }
}
