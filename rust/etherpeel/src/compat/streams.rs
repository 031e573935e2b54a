//! Headers that are read from readers of `std`, and written to its writers.

use crate::err::ReadError;
use crate::err::macsec::{HeaderReadError, HeaderSliceError};
use crate::{ArpPacket, Ethernet2Header, LinkHeader, LinuxSllHeader, MacsecHeader, SingleVlanHeader};
use std::io::{Error, Read, Write};

impl Ethernet2Header {
    /// Reads an Ethernet II header. It needs the feature `compat`.
    ///
    /// # Errors
    ///
    /// The reader has failed, or has ended within the header.
    pub fn read<T: Read + Sized>(reader: &mut T) -> Result<Ethernet2Header, Error> {
        Ok(Ethernet2Header::from_bytes(array(reader)?))
    }

    /// Writes the header. It needs the feature `compat`.
    ///
    /// # Errors
    ///
    /// The writer has failed.
    pub fn write<T: Write + Sized>(&self, writer: &mut T) -> Result<(), Error> {
        writer.write_all(&self.to_bytes())
    }
}

impl SingleVlanHeader {
    /// Reads a VLAN tag. It needs the feature `compat`.
    ///
    /// # Errors
    ///
    /// The reader has failed, or has ended within the tag.
    pub fn read<T: Read + Sized>(reader: &mut T) -> Result<SingleVlanHeader, Error> {
        Ok(SingleVlanHeader::from_bytes(array(reader)?))
    }

    /// Writes the tag. It needs the feature `compat`.
    ///
    /// # Errors
    ///
    /// The writer has failed.
    pub fn write<T: Write + Sized>(&self, writer: &mut T) -> Result<(), Error> {
        writer.write_all(&self.to_bytes())
    }
}

impl LinuxSllHeader {
    /// Reads a header of Linux cooked capture v1. It needs the feature `compat`.
    ///
    /// # Errors
    ///
    /// The reader has failed, or has ended within the header, or a field has a value that is not supported.
    pub fn read<T: Read + Sized>(reader: &mut T) -> Result<LinuxSllHeader, ReadError> {
        Ok(LinuxSllHeader::from_bytes(array(reader)?)?)
    }

    /// Writes the header. It needs the feature `compat`.
    ///
    /// # Errors
    ///
    /// The writer has failed.
    pub fn write<T: Write + Sized>(&self, writer: &mut T) -> Result<(), Error> {
        writer.write_all(&self.to_bytes())
    }
}

impl LinkHeader {
    /// Writes the header. It needs the feature `compat`.
    ///
    /// # Errors
    ///
    /// The writer has failed.
    pub fn write<T: Write + Sized>(&self, writer: &mut T) -> Result<(), Error> {
        match self {
            LinkHeader::Ethernet2(header) => header.write(writer),
            LinkHeader::LinuxSll(header) => header.write(writer),
        }
    }
}

impl MacsecHeader {
    /// Reads a SecTag, and the ether type after it if it has one, and nothing more. It needs the feature `compat`.
    ///
    /// # Errors
    ///
    /// The reader has failed, or has ended within the tag, or a field has a value that is not allowed.
    pub fn read<T: Read + Sized>(reader: &mut T) -> Result<MacsecHeader, HeaderReadError> {
        let mut bytes = [0; MacsecHeader::MAX_LEN];
        let (mut len, mut required_len) = (0, MacsecHeader::MIN_LEN);
        loop {
            reader.read_exact(&mut bytes[len..required_len])?;
            len = required_len;
            match MacsecHeader::from_slice(&bytes[..len]) {
                Ok(header) => return Ok(header),
                Err(HeaderSliceError::Len(error)) => required_len = error.required_len,
                Err(HeaderSliceError::Content(error)) => return Err(HeaderReadError::Content(error)),
            }
        }
    }

    /// Writes the tag, and the ether type after it if it has one. It needs the feature `compat`.
    ///
    /// # Errors
    ///
    /// The writer has failed.
    pub fn write<T: Write + Sized>(&self, writer: &mut T) -> Result<(), Error> {
        writer.write_all(&self.to_bytes())
    }
}

impl ArpPacket {
    /// Reads an ARP packet, and nothing more. It needs the feature `compat`.
    ///
    /// # Errors
    ///
    /// The reader has failed, or has ended within the packet.
    pub fn read<T: Read + Sized>(reader: &mut T) -> Result<ArpPacket, Error> {
        let mut bytes = [0; ArpPacket::MAX_LEN];
        let (mut len, mut required_len) = (0, ARP_FRONT_LEN);
        loop {
            reader.read_exact(&mut bytes[len..required_len])?;
            len = required_len;
            match ArpPacket::from_slice(&bytes[..len]) {
                Ok(packet) => return Ok(packet),
                Err(error) => required_len = error.required_len,
            }
        }
    }

    /// Writes the packet. It needs the feature `compat`.
    ///
    /// # Errors
    ///
    /// The writer has failed.
    pub fn write<T: Write + Sized>(&self, writer: &mut T) -> Result<(), Error> {
        writer.write_all(&self.to_bytes())
    }
}

/// The bytes of an ARP packet before its addresses.
const ARP_FRONT_LEN: usize = 8;

/// As many bytes as a header has.
fn array<const N: usize>(reader: &mut impl Read) -> Result<[u8; N], Error> {
    let mut bytes = [0; N];
    reader.read_exact(&mut bytes)?;
    Ok(bytes)
}
