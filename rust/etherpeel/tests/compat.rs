//! The feature `compat`: three programs as one writes them for etherparse, which compile as they are, and each call that
//! is by hand. Written by hand.

// The name that a manifest gives to the crate.
extern crate etherpeel as etherparse;

mod compat {
    mod arp_responder;
    mod building;
    mod drawn;
    mod errors;
    mod frames;
    mod headers;
    mod lax_slicing;
    mod packet_log;
    mod slicing;
    mod streams;
    mod unchecked;
    mod vlan_rewriter;
}
