//! The header of a classic pcap file.

use crate::ether_pcap::{ByteOrder, FileHeaderError, LinkType, TimestampResolution};

/// The header of a classic pcap file (draft-ietf-opsawg-pcap, section 4), 24 bytes: how the records after it are to be
/// read.
///
/// ```text
///  0       4       6       8            16         20         24
///  +-------+-------+-------+------------+----------+----------+
///  | magic | major | minor |  not read  | snap len |   link   |
///  +-------+-------+-------+------------+----------+----------+
/// ```
///
/// Each number is in the byte order of the machine that wrote the file, which the magic number shows. In the last
/// number the 16 lowest bits are the link type. If bit 26 is set (P; the lowest bit is bit 0), bits 28 to 31 are the
/// length of the frame check sequence in units of two bytes. Bits 16 to 25 and 27 are reserved and ignored.
///
/// ```
/// use etherpeel::ether_pcap::{ByteOrder, FileHeader, LinkType, TimestampResolution};
///
/// # fn main() -> Result<(), Box<dyn std::error::Error>> {
/// let bytes = [
///     0xD4, 0xC3, 0xB2, 0xA1, 0x02, 0x00, 0x04, 0x00, 0x00, 0x00, 0x00, 0x00, //
///     0x00, 0x00, 0x00, 0x00, 0xFF, 0xFF, 0x00, 0x00, 0x01, 0x00, 0x00, 0x24,
/// ];
/// let header = FileHeader::from_slice(&bytes)?;
/// assert_eq!(header.byte_order, ByteOrder::LittleEndian);
/// assert_eq!(header.resolution, TimestampResolution::Microseconds);
/// assert_eq!(header.snap_len, 65535);
/// assert_eq!(header.link_type, LinkType::ETHERNET);
/// assert_eq!(header.fcs_len, Some(4));
/// assert_eq!(header.to_bytes(), bytes);
/// # Ok(())
/// # }
/// ```
#[cfg_attr(feature = "serde", derive(serde::Serialize, serde::Deserialize))]
#[derive(Clone, Copy, PartialEq, Eq, Hash, Debug)]
pub struct FileHeader {
    /// The order of the bytes of each number in the file.
    pub byte_order: ByteOrder,
    /// The unit of the second number in each record's time.
    pub resolution: TimestampResolution,
    /// The length in bytes to which longer packets were cut when they were captured.
    pub snap_len: u32,
    /// What each packet begins with.
    pub link_type: LinkType,
    /// The length in bytes of the frame check sequence at the end of each packet, if the file gives it: an even number
    /// up to 30.
    pub fcs_len: Option<u8>,
}

impl FileHeader {
    /// The length of the header in bytes.
    pub const LEN: usize = 24;

    /// Reads the header at the front of a slice. The records begin after its 24 bytes.
    ///
    /// # Errors
    ///
    /// The first of these that holds:
    ///
    /// - `FileHeaderError::Len`: the slice has fewer than 24 bytes. `required_len` is 24, `len` the slice's length.
    /// - `FileHeaderError::Magic`: the first four bytes are neither 0xA1B2C3D4 nor 0xA1B23C4D, in either byte order.
    /// - `FileHeaderError::Version`: the version, which the error names, is not 2.4.
    ///
    /// <details><summary>Contract</summary>
    ///
    /// ```text
    /// ensures header { IfOk result (λ h. IsFileHeader slice.now (file_header_view h)) }
    /// ensures refused { IfErr result (λ e. RefusesFile slice.now (file_refusal_view e)) }
    /// ```
    ///
    /// Words: [`IsFileHeader`](crate::definitions::ether_pcap#def.IsFileHeader),
    /// [`file_header_view`](crate::definitions::ether_pcap#def.file_header_view),
    /// [`RefusesFile`](crate::definitions::ether_pcap#def.RefusesFile),
    /// [`file_refusal_view`](crate::definitions::ether_pcap#def.file_refusal_view).
    /// [Notation](crate::definitions::notation)
    ///
    /// </details>
    #[inline]
    pub fn from_slice(slice: &[u8]) -> Result<FileHeader, FileHeaderError> {
        if slice.len() < FileHeader::LEN {
            return Err(FileHeaderError::Len {
                required_len: FileHeader::LEN,
                len: slice.len(),
            });
        }
        let (byte_order, resolution) = magic(slice)?;
        let major = byte_order.u16_at(slice, 4);
        let minor = byte_order.u16_at(slice, 6);
        if (major, minor) != (2, 4) {
            return Err(FileHeaderError::Version { major, minor });
        }
        let link = byte_order.u32_at(slice, 20);
        Ok(FileHeader {
            byte_order,
            resolution,
            snap_len: byte_order.u32_at(slice, 16),
            link_type: LinkType((link % 0x1_0000) as u16),
            fcs_len: fcs_len(link),
        })
    }

    /// The 24 bytes of the header. Bytes that are not read, and reserved bits, are 0.
    ///
    /// `fcs_len` should be even and at most 30. Of any other number, half of it, rounded down and modulo 16, is
    /// written.
    ///
    /// <details><summary>Contract</summary>
    ///
    /// ```text
    /// ensures value { WritesFileHeader result (file_header_view self.now) }
    /// ensures len { length result ≡ 24 }
    /// ensures read_back { HasFcsLen self.now.fcs_len → (rest : List ℕ)
    ///     → IsFileHeader (result ++ rest) (file_header_view self.now) }
    /// ```
    ///
    /// Words: [`WritesFileHeader`](crate::definitions::ether_pcap#def.WritesFileHeader),
    /// [`file_header_view`](crate::definitions::ether_pcap#def.file_header_view),
    /// [`HasFcsLen`](crate::definitions::ether_pcap#def.HasFcsLen),
    /// [`IsFileHeader`](crate::definitions::ether_pcap#def.IsFileHeader). [Notation](crate::definitions::notation)
    ///
    /// </details>
    #[must_use]
    #[inline]
    pub fn to_bytes(&self) -> [u8; 24] {
        let order = self.byte_order;
        joined(
            order.bytes_of_u32(self.resolution.magic()),
            order.bytes_of_u16(2),
            order.bytes_of_u16(4),
            order.bytes_of_u32(self.snap_len),
            order.bytes_of_u32(link_word(self.link_type, self.fcs_len)),
        )
    }
}

/// Three numbers, eight zeros, and two numbers, one after the other.
#[inline]
fn joined(
    magic: [u8; 4],
    major: [u8; 2],
    minor: [u8; 2],
    snap_len: [u8; 4],
    link: [u8; 4],
) -> [u8; 24] {
    let [m0, m1, m2, m3] = magic;
    let [a0, a1] = major;
    let [i0, i1] = minor;
    let [s0, s1, s2, s3] = snap_len;
    let [l0, l1, l2, l3] = link;
    [
        m0, m1, m2, m3, a0, a1, i0, i1, 0, 0, 0, 0, 0, 0, 0, 0, s0, s1, s2, s3, l0, l1, l2, l3,
    ]
}

/// The last number of the header.
#[inline]
fn link_word(link_type: LinkType, fcs_len: Option<u8>) -> u32 {
    let link_type = u32::from(link_type.0);
    match fcs_len {
        None => link_type,
        Some(len) => u32::from(len / 2 % 16) * 0x1000_0000 + 0x400_0000 + link_type,
    }
}

/// The byte order and the resolution of times that the first four bytes show.
#[inline]
fn magic(slice: &[u8]) -> Result<(ByteOrder, TimestampResolution), FileHeaderError> {
    let number = ByteOrder::BigEndian.u32_at(slice, 0);
    if let Some(resolution) = TimestampResolution::of_magic(number) {
        return Ok((ByteOrder::BigEndian, resolution));
    }
    if let Some(resolution) = TimestampResolution::of_magic(ByteOrder::LittleEndian.u32_at(
        slice, 0,
    )) {
        return Ok((ByteOrder::LittleEndian, resolution));
    }
    Err(FileHeaderError::Magic(number))
}

/// The length in bytes of the frame check sequence, from the last number of the header.
#[inline]
fn fcs_len(link: u32) -> Option<u8> {
    if link / 0x400_0000 % 2 == 1 {
        Some((link / 0x1000_0000) as u8 * 2)
    } else {
        None
    }
}
