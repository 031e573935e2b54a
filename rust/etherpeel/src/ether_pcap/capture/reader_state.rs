//! How far a capture file was read, and the unit after that.

use crate::ether_pcap::capture::capture_blocks::read_block;
use crate::ether_pcap::{
    ByteOrder, CaptureError, CapturedPacket, DescribedInterfaces, FileHeader, PcapRecord,
    PcapngBlock, ReadUnit, SectionHeader, Timestamp, UnitContent,
};

/// How far a capture file was read: what a [`CaptureReader`](crate::ether_pcap::CaptureReader) keeps besides the interfaces.
///
/// A program that keeps both itself reads units by [`read`](Self::read).
#[derive(Clone, Copy, PartialEq, Eq, Hash, Debug)]
pub enum ReaderState {
    /// Nothing was read.
    Nothing,
    /// The header of a classic file was read.
    Classic(FileHeader),
    /// The header of a section of a pcapng file was read, which has this byte order.
    Section(ByteOrder),
}

impl ReaderState {
    /// Reads the unit at the front of a slice, where the section has described these interfaces so far. Bytes after
    /// the unit are ignored.
    ///
    /// The caller keeps what the unit says. A file header or a section header is the next state; after a section header
    /// the section has no interfaces yet; an interface follows those before it. If there is no room for an interface,
    /// the file can't be read on: that is [`CaptureError::TooManyInterfaces`], which this function does not return.
    /// [`CaptureReader::read`](crate::ether_pcap::CaptureReader::read) does all this.
    ///
    /// # Errors
    ///
    /// If the slice ends within the unit, [`CaptureError::required_len`] is the minimum number of bytes that the unit
    /// needs, which is more than the slice has. With any other error the rest of the file can't be read.
    ///
    /// ```
    /// use etherpeel::ether_pcap::{InterfaceSlice, ReaderState, UnitContent};
    ///
    /// # fn main() -> Result<(), Box<dyn std::error::Error>> {
    /// let file = [
    ///     0xA1, 0xB2, 0xC3, 0xD4, 0x00, 0x02, 0x00, 0x04, 0x00, 0x00, 0x00, 0x00, // file header
    ///     0x00, 0x00, 0x00, 0x00, 0x00, 0x00, 0xFF, 0xFF, 0x00, 0x00, 0x00, 0x01, //
    ///     0x00, 0x00, 0x00, 0x01, 0x00, 0x00, 0x00, 0x02, 0x00, 0x00, 0x00, 0x01, 0x00, 0x00, 0x00, 0x01, // record
    ///     0xFF,
    /// ];
    /// let interfaces = InterfaceSlice(&[]);
    /// let unit = ReaderState::Nothing.read(&interfaces, &file)?;
    /// assert_eq!(unit.len, 24);
    /// if let UnitContent::FileHeader(header) = unit.content {
    ///     let record = ReaderState::Classic(header).read(&interfaces, &file[unit.len..])?;
    ///     assert_eq!(record.len, 17);
    ///     assert_eq!(matches!(record.content, UnitContent::Packet(_)), true);
    /// }
    /// # Ok(())
    /// # }
    /// ```
    ///
    /// <details><summary>Contract</summary>
    ///
    /// ```text
    /// ensures unit { IfOk result (ReadsUnit bytes.now self.now (I.items interfaces.now)) }
    /// ensures refused { IfErr result (λ e. (most : ℕ) → RefusesCapture bytes.now
    ///     (expectation_of most self.now (I.items interfaces.now)) (capture_refusal_view e)) }
    /// ```
    ///
    /// Words: [`ReadsUnit`](crate::definitions::ether_pcap#def.ReadsUnit),
    /// [`RefusesCapture`](crate::definitions::ether_pcap#def.RefusesCapture),
    /// [`expectation_of`](crate::definitions::ether_pcap#def.expectation_of),
    /// [`capture_refusal_view`](crate::definitions::ether_pcap#def.capture_refusal_view).
    /// [Notation](crate::definitions::notation)
    ///
    /// </details>
    #[inline(always)]
    pub fn read<'a, I: DescribedInterfaces>(
        &self,
        interfaces: &I,
        bytes: &'a [u8],
    ) -> Result<ReadUnit<'a>, CaptureError> {
        if let ReaderState::Classic(header) = self {
            let (len, packet) = read_record(header, bytes)?;
            let content = UnitContent::Packet(packet);
            return Ok(ReadUnit { len, content });
        }
        if begins_section(bytes) {
            return read_section(bytes);
        }
        if let ReaderState::Section(byte_order) = self {
            return read_block(*byte_order, interfaces, bytes);
        }
        match FileHeader::from_slice(bytes) {
            Ok(header) => Ok(ReadUnit {
                len: FileHeader::LEN,
                content: UnitContent::FileHeader(header),
            }),
            Err(error) => Err(CaptureError::File(error)),
        }
    }
}

/// Tests that a slice begins with the type of a section header.
#[inline]
pub(in crate::ether_pcap) fn begins_section(bytes: &[u8]) -> bool {
    bytes.len() >= 4 && ByteOrder::BigEndian.u32_at(bytes, 0) == PcapngBlock::SECTION_HEADER
}

/// Reads the section header at the front of a slice.
#[inline]
fn read_section<'a>(bytes: &'a [u8]) -> Result<ReadUnit<'a>, CaptureError> {
    match SectionHeader::from_slice(bytes) {
        Ok(section) => Ok(ReadUnit {
            len: section.block.block_len(),
            content: UnitContent::Section(section.byte_order),
        }),
        Err(error) => Err(CaptureError::Section(error)),
    }
}

/// Reads the record at the front of a slice: its length and its packet.
#[inline(always)]
pub(in crate::ether_pcap) fn read_record<'a>(
    header: &FileHeader,
    bytes: &'a [u8],
) -> Result<(usize, CapturedPacket<'a>), CaptureError> {
    let record = match PcapRecord::from_slice(header, bytes) {
        Ok(record) => record,
        Err(error) => return Err(CaptureError::Record(error)),
    };
    let time = Timestamp::from_nanoseconds(record.nanoseconds(header.resolution));
    let packet = CapturedPacket {
        time: Some(time),
        interface: None,
        direction: None,
        comment: None,
        original_len: record.original_len,
        link_type: header.link_type,
        snap_len: header.snap_len,
        fcs_len: header.fcs_len,
        packet: record.packet,
    };
    Ok((record.record_len(), packet))
}
