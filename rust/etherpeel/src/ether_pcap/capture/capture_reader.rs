//! A reader of capture files of either format, one unit at a time.

use crate::ether_pcap::capture::capture_blocks::read_enhanced_packet;
use crate::ether_pcap::capture::described_interfaces::InterfaceSlice;
use crate::ether_pcap::capture::reader_state::read_record;
use crate::ether_pcap::{
    CaptureError, CaptureUnit, CapturedPacket, CopiedUnit, CopyMode, EditedUnit, InterfaceTable,
    ReaderState, UnitContent,
};

/// Reads capture files of the classic pcap format and of pcapng, one unit at a time.
///
/// The reader keeps the file header, or the byte order of the section and its interfaces, but no bytes of the file: a
/// program can read a file through a buffer of its own. The first bytes of the file show its format. A section may
/// describe as many interfaces as `T` has room for.
///
/// ```
/// use etherpeel::ether_pcap::{CaptureInterface, CaptureReader, Timestamp};
/// use arrayvec::ArrayVec;
///
/// # fn main() -> Result<(), Box<dyn std::error::Error>> {
/// let file = [
///     0xA1, 0xB2, 0xC3, 0xD4, 0x00, 0x02, 0x00, 0x04, 0x00, 0x00, 0x00, 0x00, // file header
///     0x00, 0x00, 0x00, 0x00, 0x00, 0x00, 0xFF, 0xFF, 0x00, 0x00, 0x00, 0x01, //
///     0x00, 0x00, 0x00, 0x01, 0x00, 0x00, 0x00, 0x02, 0x00, 0x00, 0x00, 0x01, 0x00, 0x00, 0x00, 0x01, // record
///     0xFF,
/// ];
/// let mut reader = CaptureReader::new(ArrayVec::<CaptureInterface, 16>::new());
/// let header = reader.read(&file)?;
/// assert_eq!(header.len, 24);
/// assert_eq!(header.packet, None);
/// let record = reader.read(&file[24..])?;
/// assert_eq!(record.len, 17);
/// if let Some(packet) = record.packet {
///     let time = Timestamp {
///         seconds: 1,
///         nanoseconds: 2_000,
///     };
///     assert_eq!(packet.time, Some(time));
///     assert_eq!(packet.packet, [0xFF].as_slice());
/// }
/// # Ok(())
/// # }
/// ```
#[derive(Clone, Debug)]
pub struct CaptureReader<T: InterfaceTable> {
    state: ReaderState,
    interfaces: T,
}

impl<T: InterfaceTable> CaptureReader<T> {
    /// A reader at the beginning of a file, which keeps interfaces in this table.
    ///
    /// <details><summary>Contract</summary>
    ///
    /// ```text
    /// ensures { result ≡ Beginning T.most }
    /// ```
    ///
    /// Words: [`Beginning`](crate::definitions::ether_pcap#def.CaptureExpectation).
    /// [Notation](crate::definitions::notation)
    ///
    /// </details>
    #[must_use]
    #[inline]
    pub fn new(interfaces: T) -> CaptureReader<T> {
        CaptureReader {
            state: ReaderState::Nothing,
            interfaces,
        }
    }

    /// Tests that at least one unit was read. If so, and if no bytes are left, the file is complete.
    ///
    /// <details><summary>Contract</summary>
    ///
    /// ```text
    /// ensures { IsTrue result ↔ HasBegun self.now }
    /// ```
    ///
    /// Words: [`HasBegun`](crate::definitions::ether_pcap#def.HasBegun). [Notation](crate::definitions::notation)
    ///
    /// </details>
    #[must_use]
    #[inline]
    pub fn has_begun(&self) -> bool {
        !matches!(self.state, ReaderState::Nothing)
    }

    /// Reads the unit at the front of a slice. Bytes after the unit are ignored.
    ///
    /// A file whose first four bytes are the type of a section header is read as pcapng, and any other file as classic
    /// pcap. A further section header begins a new section, without interfaces. Interface descriptions, simple and
    /// enhanced packets and obsolete packet blocks are read; blocks of other types are units without a packet.
    ///
    /// # Errors
    ///
    /// After an error the reader is unchanged. If the slice ends within the unit, [`CaptureError::required_len`] is
    /// the minimum number of bytes that the unit needs, which is more than the slice has: call again with at least
    /// that many. With any other error the rest of the file can't be read.
    ///
    /// <details><summary>Contract</summary>
    ///
    /// ```text
    /// ensures unit { IfOk result (λ u. Begins bytes.now
    ///     self.old u.len (option_map captured_packet_view u.packet) self.new) }
    /// ensures refused { IfErr result (λ e. RefusesCapture bytes.now self.old (capture_refusal_view e)) }
    /// ensures same { OnErr result (self.new ≡ self.old) }
    /// ensures within { IfOk result (λ u. u.len ≤ length bytes.now) }
    /// ensures some { IfOk result (λ u. 0 < u.len) }
    /// ensures short { IfErr result (λ e. (n : ℕ)
    ///     → required_len (capture_refusal_view e) ≡ Some n → length bytes.now < n) }
    /// ```
    ///
    /// Words: [`Begins`](crate::definitions::ether_pcap#def.Begins),
    /// [`captured_packet_view`](crate::definitions::ether_pcap#def.captured_packet_view),
    /// [`RefusesCapture`](crate::definitions::ether_pcap#def.RefusesCapture),
    /// [`capture_refusal_view`](crate::definitions::ether_pcap#def.capture_refusal_view),
    /// [`required_len`](crate::definitions::ether_pcap#def.required_len). [Notation](crate::definitions::notation)
    ///
    /// </details>
    #[inline(always)]
    pub fn read<'a>(&mut self, bytes: &'a [u8]) -> Result<CaptureUnit<'a>, CaptureError> {
        self.read_unit(bytes)
    }

    /// The unit of a packet with other captured bytes and another original length, as [`ReaderState::edit_unit`]
    /// gives it. `unit` must have exactly the bytes of the unit that this reader read last.
    ///
    /// <details><summary>Contract</summary>
    ///
    /// ```text
    /// ensures edited { EditsUnit self.now unit.now (record { original_len = original_len; packet = packet.now })
    ///     result }
    /// ensures packet { HasEditedPacket self.now unit.now (record { original_len = original_len; packet = packet.now })
    ///     result }
    /// ensures padding { IfSome result (λ u. padding_of u ≤ 3) }
    /// ```
    ///
    /// Words: [`EditsUnit`](crate::definitions::ether_pcap#def.EditsUnit),
    /// [`HasEditedPacket`](crate::definitions::ether_pcap#def.HasEditedPacket),
    /// [`padding_of`](crate::definitions::ether_pcap#def.padding_of). [Notation](crate::definitions::notation)
    ///
    /// </details>
    #[must_use]
    #[inline]
    pub fn edit_unit<'a>(
        &self,
        unit: &'a [u8],
        packet: &'a [u8],
        original_len: u64,
    ) -> Option<EditedUnit<'a>> {
        self.state.edit_unit(unit, packet, original_len)
    }

    /// The bytes that a copy has for a unit without a packet, as [`ReaderState::copy_unit`] gives them. `unit` must
    /// have exactly the bytes of the unit that this reader read last.
    ///
    /// <details><summary>Contract</summary>
    ///
    /// ```text
    /// ensures { (x : CaptureExpectation) → Begins unit.now x (length unit.now) None self.now
    ///     → copied_bytes result ≡ other_unit (copy_mode_view mode) self.now unit.now }
    /// ```
    ///
    /// Words: [`CaptureExpectation`](crate::definitions::ether_pcap#def.CaptureExpectation),
    /// [`Begins`](crate::definitions::ether_pcap#def.Begins),
    /// [`copied_bytes`](crate::definitions::ether_pcap#def.copied_bytes),
    /// [`other_unit`](crate::definitions::ether_pcap#def.other_unit),
    /// [`copy_mode_view`](crate::definitions::ether_pcap#def.copy_mode_view).
    /// [Notation](crate::definitions::notation)
    ///
    /// </details>
    #[must_use]
    #[inline]
    pub fn copy_unit<'a>(&self, mode: CopyMode, unit: &'a [u8]) -> CopiedUnit<'a> {
        self.state.copy_unit(mode, unit)
    }

    /// Tests that a copy can have the unit of a packet that is not edited, unchanged, as
    /// [`ReaderState::copies_packet`] does. `unit` must have exactly the bytes of the unit that this reader read last,
    /// and `packet` must be its packet.
    ///
    /// <details><summary>Contract</summary>
    ///
    /// ```text
    /// ensures { Begins unit.now self.now (length unit.now) (Some (captured_packet_view packet.now)) self.now
    ///     → packet_unit (copy_mode_view mode) self.now (captured_packet_view packet.now) unit.now
    ///     ≡ (if result then Some unit.now else None) }
    /// ```
    ///
    /// Words: [`Begins`](crate::definitions::ether_pcap#def.Begins),
    /// [`captured_packet_view`](crate::definitions::ether_pcap#def.captured_packet_view),
    /// [`packet_unit`](crate::definitions::ether_pcap#def.packet_unit),
    /// [`copy_mode_view`](crate::definitions::ether_pcap#def.copy_mode_view).
    /// [Notation](crate::definitions::notation)
    ///
    /// </details>
    #[must_use]
    #[inline]
    pub fn copies_packet(&self, mode: CopyMode, unit: &[u8], packet: &CapturedPacket<'_>) -> bool {
        self.state.copies_packet(mode, unit, packet)
    }

    /// Does as `read`.
    #[inline(always)]
    fn read_unit<'a>(&mut self, bytes: &'a [u8]) -> Result<CaptureUnit<'a>, CaptureError> {
        if let ReaderState::Classic(header) = &self.state {
            let (len, packet) = read_record(header, bytes)?;
            return Ok(CaptureUnit {
                len,
                packet: Some(packet),
            });
        }
        self.read_other(bytes)
    }

    /// Does as `read`, for any unit. It is a function of its own so that records are read without its variables.
    #[inline(never)]
    fn read_other<'a>(&mut self, bytes: &'a [u8]) -> Result<CaptureUnit<'a>, CaptureError> {
        let interfaces = InterfaceSlice(self.interfaces.interfaces());
        if let ReaderState::Section(byte_order) = &self.state {
            if let Some((len, packet)) = read_enhanced_packet(*byte_order, &interfaces, bytes)? {
                return Ok(CaptureUnit {
                    len,
                    packet: Some(packet),
                });
            }
        }
        let unit = self.state.read(&interfaces, bytes)?;
        if let UnitContent::Packet(packet) = unit.content {
            return Ok(CaptureUnit {
                len: unit.len,
                packet: Some(packet),
            });
        }
        keep(&mut self.state, &mut self.interfaces, &unit.content)?;
        Ok(CaptureUnit {
            len: unit.len,
            packet: None,
        })
    }
}

/// Keeps what a unit says of those after it, if there is room.
#[inline]
fn keep<T: InterfaceTable>(
    state: &mut ReaderState,
    interfaces: &mut T,
    content: &UnitContent<'_>,
) -> Result<(), CaptureError> {
    match content {
        UnitContent::FileHeader(header) => *state = ReaderState::Classic(*header),
        UnitContent::Section(byte_order) => {
            *state = ReaderState::Section(*byte_order);
            interfaces.remove_all();
        }
        UnitContent::Interface(interface) => {
            if !interfaces.add(*interface) {
                return Err(CaptureError::TooManyInterfaces);
            }
        }
        UnitContent::Packet(_) | UnitContent::Other => {}
    }
    Ok(())
}
