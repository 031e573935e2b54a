//! Prints what the crate says of each frame of standard input, as one line. A line of input is
//! `START ETHER_TYPE LIMIT CUT TPID VID FRAME`: numbers, `-` for no limit, and hexadecimal digits.
mod calls;
mod units;

use etherpeel::EtherType;
use etherpeel::ether_peel::{Peel, Start};
use std::fmt::Write;
use std::io::{self, BufRead};

/// A line of input.
struct Drawn {
    start: Start,
    limit: Option<usize>,
    cut: usize,
    tpid: EtherType,
    vid: u16,
    frame: Vec<u8>,
}

fn drawn(line: &str) -> Option<Drawn> {
    let [start, ether_type, limit, cut, tpid, vid, digits] = line.split(' ').collect::<Vec<_>>().try_into().ok()?;
    let frame = (0..digits.len() / 2).map(|i| u8::from_str_radix(&digits[2 * i..2 * i + 2], 16));
    Some(Drawn {
        start: match start {
            "1" => Start::Ethernet2,
            "2" => Start::Ethernet2Fcs,
            "3" => Start::LinuxSll,
            _ => Start::EtherType(EtherType(ether_type.parse().ok()?)),
        },
        limit: limit.parse().ok(),
        cut: cut.parse().ok()?,
        tpid: EtherType(tpid.parse().ok()?),
        vid: vid.parse().ok()?,
        frame: frame.collect::<Result<_, _>>().ok()?,
    })
}

/// The walk: its units, what is left, and the fault.
fn walk(d: &Drawn, out: &mut String) {
    let mut peel = match d.limit {
        None => Peel::new(d.start, &d.frame),
        Some(limit) => Peel::with_limit(d.start, &d.frame, limit),
    };
    let (mut at, mut fault) = (peel.offset(), None);
    while let Some(next) = peel.next() {
        match next {
            Ok(unit) => {
                let (begin, end) = (peel.offset(), peel.offset() + peel.rest().len());
                let _ = write!(out, "{} {at} {} {end} {} ", units::kind(&unit), begin - at, u8::from(peel.closed()));
                units::fields(&unit, out);
                out.push(';');
                at = begin;
            }
            Err(found) => fault = Some(found),
        }
    }
    let _ = write!(out, "{at} {} ", peel.offset() + peel.rest().len());
    units::rest(peel.kind(), out);
    units::fault(fault.as_ref(), out);
}

fn main() -> io::Result<()> {
    for line in io::stdin().lock().lines() {
        let mut out = String::new();
        if let Some(d) = drawn(&line?) {
            walk(&d, &mut out);
            calls::all(&d, &mut out);
        }
        println!("{out}");
    }
    Ok(())
}
