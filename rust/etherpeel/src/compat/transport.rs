//! What is never read: the transport layer.

use core::convert::Infallible;
use core::marker::PhantomData;

/// A view of the transport layer of a packet, of which there is none here: `transport` is always `None`.
#[derive(Clone, PartialEq, Eq, Debug)]
pub struct TransportSlice<'a> {
    never: Infallible,
    bytes: PhantomData<&'a [u8]>,
}

/// The transport layer of a packet as a value, of which there is none here: `transport` is always `None`.
#[derive(Clone, PartialEq, Eq, Hash, Debug)]
pub enum TransportHeader {}
