//! A record: a captured packet.

use crate::ether_pcap::{ByteOrder, FileHeader, RecordError, TimestampResolution};

/// A view of a record of a classic pcap file (draft-ietf-opsawg-pcap, section 5): a captured packet, with a header of
/// 16 bytes before it.
///
/// ```text
///  0         4          8              12             16
///  +---------+----------+--------------+--------------+-- ..
///  | seconds | fraction | captured len | original len | packet
///  +---------+----------+--------------+--------------+-- ..
/// ```
///
/// Each number is in the byte order of the file.
///
/// ```
/// use etherpeel::ether_pcap::{ByteOrder, FileHeader, LinkType, PcapRecord, TimestampResolution};
///
/// # fn main() -> Result<(), Box<dyn std::error::Error>> {
/// let file = FileHeader {
///     byte_order: ByteOrder::BigEndian,
///     resolution: TimestampResolution::Microseconds,
///     snap_len: 2,
///     link_type: LinkType::ETHERNET,
///     fcs_len: None,
/// };
/// let bytes = [
///     0x65, 0x53, 0xF1, 0x00, 0x00, 0x00, 0x00, 0x05, 0x00, 0x00, 0x00, 0x02, 0x00, 0x00, 0x00, 0x3C, // header
///     0xFF, 0xFF, // packet
/// ];
/// let record = PcapRecord::from_slice(&file, &bytes)?;
/// assert_eq!(record.nanoseconds(file.resolution), 1_700_000_000_000_005_000);
/// assert_eq!(record.original_len, 60);
/// assert_eq!(record.packet, [0xFF, 0xFF].as_slice());
/// # Ok(())
/// # }
/// ```
#[derive(Clone, Copy, PartialEq, Eq, Debug)]
pub struct PcapRecord<'a> {
    /// The time of the capture in whole seconds since the beginning of 1970, UTC.
    pub seconds: u32,
    /// The fraction of a second that is added, in units of the file's [`TimestampResolution`]. It should be less than
    /// a second.
    pub fraction: u32,
    /// The length of the packet in bytes before it was cut. It should not be less than that of `packet`.
    pub original_len: u32,
    /// The captured bytes of the packet.
    pub packet: &'a [u8],
}

impl<'a> PcapRecord<'a> {
    /// The length of a record's header in bytes.
    pub const HEADER_LEN: usize = 16;

    /// The maximum number of captured bytes that is read: libpcap's maximum snap length for Ethernet and cooked
    /// captures.
    pub const MAX_CAPTURED_LEN: u32 = 262_144;

    /// Reads the record at the front of a slice. Bytes after it are not part of the view.
    ///
    /// The captured length is compared neither with the file's snap length nor with the original length.
    ///
    /// # Errors
    ///
    /// The first of these that holds:
    ///
    /// - `RecordError::Len`: the slice has fewer than 16 bytes. `required_len` is 16, `len` the slice's length.
    /// - `RecordError::CapturedLen`: the number of captured bytes, which the error names, is above 262,144.
    /// - `RecordError::Len`: the slice ends within the packet. `required_len` is the length of the whole record, `len`
    ///   that of the slice.
    ///
    /// <details><summary>Contract</summary>
    ///
    /// ```text
    /// ensures record { IfOk result (λ r. BeginsRecord (order_of file.now.byte_order) slice.now (record_view r)) }
    /// ensures refused { IfErr result
    ///     (λ e. RefusesRecord (order_of file.now.byte_order) slice.now (record_refusal_view e)) }
    /// ```
    ///
    /// Words: [`BeginsRecord`](crate::definitions::ether_pcap#def.BeginsRecord),
    /// [`order_of`](crate::definitions::ether_pcap#def.order_of),
    /// [`record_view`](crate::definitions::ether_pcap#def.record_view),
    /// [`RefusesRecord`](crate::definitions::ether_pcap#def.RefusesRecord),
    /// [`record_refusal_view`](crate::definitions::ether_pcap#def.record_refusal_view).
    /// [Notation](crate::definitions::notation)
    ///
    /// </details>
    #[inline]
    pub fn from_slice(file: &FileHeader, slice: &'a [u8]) -> Result<PcapRecord<'a>, RecordError> {
        let order = file.byte_order;
        if slice.len() < PcapRecord::HEADER_LEN {
            return Err(RecordError::Len {
                required_len: PcapRecord::HEADER_LEN,
                len: slice.len(),
            });
        }
        let captured_len = order.u32_at(slice, 8);
        if captured_len > PcapRecord::MAX_CAPTURED_LEN {
            return Err(RecordError::CapturedLen(captured_len));
        }
        let end = PcapRecord::HEADER_LEN + captured_len as usize;
        if slice.len() < end {
            return Err(RecordError::Len {
                required_len: end,
                len: slice.len(),
            });
        }
        Ok(PcapRecord {
            seconds: order.u32_at(slice, 0),
            fraction: order.u32_at(slice, 4),
            original_len: order.u32_at(slice, 12),
            packet: &slice[PcapRecord::HEADER_LEN..end],
        })
    }

    /// The length of the record in bytes, with its header. The next record begins after it.
    ///
    /// <details><summary>Contract</summary>
    ///
    /// ```text
    /// ensures { result ≡ 16 + length self.now.packet.now }
    /// ```
    ///
    /// [Notation](crate::definitions::notation)
    ///
    /// </details>
    #[must_use]
    #[inline]
    pub fn record_len(&self) -> usize {
        PcapRecord::HEADER_LEN + self.packet.len()
    }

    /// The time of the capture in nanoseconds since the beginning of 1970, UTC, with `fraction` in units of this
    /// resolution.
    ///
    /// <details><summary>Contract</summary>
    ///
    /// ```text
    /// ensures { result ≡ nanoseconds_of (resolution_of resolution) self.now.seconds self.now.fraction }
    /// ```
    ///
    /// Words: [`nanoseconds_of`](crate::definitions::ether_pcap#def.nanoseconds_of),
    /// [`resolution_of`](crate::definitions::ether_pcap#def.resolution_of). [Notation](crate::definitions::notation)
    ///
    /// </details>
    #[must_use]
    #[inline]
    pub fn nanoseconds(&self, resolution: TimestampResolution) -> u64 {
        let fraction = u64::from(self.fraction);
        let nanoseconds = match resolution {
            TimestampResolution::Microseconds => fraction * 1_000,
            TimestampResolution::Nanoseconds => fraction,
        };
        u64::from(self.seconds) * 1_000_000_000 + nanoseconds
    }

    /// The bytes of the record's header in this byte order. In a file the bytes of `packet` follow them.
    ///
    /// A record with more than [`PcapRecord::MAX_CAPTURED_LEN`] captured bytes can be written, but is not read back. A
    /// captured length of 4 GiB or more is written modulo 2^32.
    ///
    /// ```
    /// use etherpeel::ether_pcap::{ByteOrder, PcapRecord};
    ///
    /// let record = PcapRecord {
    ///     seconds: 1_700_000_000,
    ///     fraction: 5,
    ///     original_len: 60,
    ///     packet: &[0xFF, 0xFF],
    /// };
    /// let bytes = record.header_to_bytes(ByteOrder::BigEndian);
    /// let wanted = [
    ///     0x65, 0x53, 0xF1, 0x00, 0x00, 0x00, 0x00, 0x05, 0x00, 0x00, 0x00, 0x02, 0x00, 0x00, 0x00, 0x3C,
    /// ];
    /// assert_eq!(bytes, wanted);
    /// ```
    ///
    /// <details><summary>Contract</summary>
    ///
    /// ```text
    /// ensures value { WritesRecordHeader (order_of byte_order) result (record_view self.now) }
    /// ensures len { length result ≡ 16 }
    /// ensures read_back { length self.now.packet.now ≤ max_captured_len → (rest : List ℕ)
    ///     → BeginsRecord (order_of byte_order) (result ++ self.now.packet.now ++ rest) (record_view self.now) }
    /// ```
    ///
    /// Words: [`WritesRecordHeader`](crate::definitions::ether_pcap#def.WritesRecordHeader),
    /// [`order_of`](crate::definitions::ether_pcap#def.order_of),
    /// [`record_view`](crate::definitions::ether_pcap#def.record_view),
    /// [`max_captured_len`](crate::definitions::ether_pcap#def.max_captured_len),
    /// [`BeginsRecord`](crate::definitions::ether_pcap#def.BeginsRecord). [Notation](crate::definitions::notation)
    ///
    /// </details>
    #[must_use]
    #[inline]
    pub fn header_to_bytes(&self, byte_order: ByteOrder) -> [u8; 16] {
        joined(
            byte_order.bytes_of_u32(self.seconds),
            byte_order.bytes_of_u32(self.fraction),
            byte_order.bytes_of_u32((self.packet.len() as u64 % 0x1_0000_0000) as u32),
            byte_order.bytes_of_u32(self.original_len),
        )
    }
}

/// Joins four numbers.
#[inline]
fn joined(
    seconds: [u8; 4],
    fraction: [u8; 4],
    captured_len: [u8; 4],
    original_len: [u8; 4],
) -> [u8; 16] {
    let [s0, s1, s2, s3] = seconds;
    let [f0, f1, f2, f3] = fraction;
    let [c0, c1, c2, c3] = captured_len;
    let [o0, o1, o2, o3] = original_len;
    [
        s0, s1, s2, s3, f0, f1, f2, f3, c0, c1, c2, c3, o0, o1, o2, o3,
    ]
}
