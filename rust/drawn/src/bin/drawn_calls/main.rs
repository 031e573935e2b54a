//! Calls the public functions of the crate with drawn values, and prints what they return: by hand, for calls.py.
// The forms are those of the sources.
#![allow(clippy::all)]

#[rustfmt::skip]
mod arp;
#[rustfmt::skip]
mod captures;
#[rustfmt::skip]
mod contents;
#[rustfmt::skip]
mod draw;
#[rustfmt::skip]
mod ethernet2;
#[rustfmt::skip]
mod filters;
#[rustfmt::skip]
mod frames;
#[rustfmt::skip]
mod inputs;
#[rustfmt::skip]
mod lines;
#[rustfmt::skip]
mod macsec;
#[rustfmt::skip]
mod numbers;
#[rustfmt::skip]
mod packets;
#[rustfmt::skip]
mod pcap;
#[rustfmt::skip]
mod returned;
#[rustfmt::skip]
mod same;
#[rustfmt::skip]
mod sll;
#[rustfmt::skip]
mod sll2;
#[rustfmt::skip]
mod switches;
#[rustfmt::skip]
mod text;
#[rustfmt::skip]
mod vlan;
#[rustfmt::skip]
mod walks;

use inputs::{KINDS, calls};
use text::Text;

fn main() -> Result<(), std::fmt::Error> {
    let mut arguments = std::env::args().skip(1);
    let first = number_in(arguments.next());
    let count = number_in(arguments.next());
    let per_line = number_in(arguments.next()).max(1);
    let shows_texts = arguments.next().is_some();
    let mut text = Text::new();
    for index in 0..count {
        let number = first.wrapping_add(index);
        text.set_form(shows_texts || number % 1000 < KINDS);
        calls(number, &mut text)?;
        if (index + 1) % per_line == 0 || index + 1 == count {
            println!("{} {}", first.wrapping_add(index - index % per_line), text.digest());
            if shows_texts {
                println!("{}", text.front());
            }
            text.clear();
        }
    }
    Ok(())
}

/// The number that an argument has; 0 if it has none.
fn number_in(argument: Option<String>) -> u64 {
    argument.and_then(|word| word.parse().ok()).unwrap_or(0)
}
