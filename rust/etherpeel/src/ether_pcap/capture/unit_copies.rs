//! The units of a copy.

use crate::ether_pcap::capture::copying::{changed_block, changed_header, changed_section, keeps_block};
use crate::ether_pcap::capture::editing::{edited_block, edited_record};
use crate::ether_pcap::capture::reader_state::begins_section;
use crate::ether_pcap::{CapturedPacket, CopiedUnit, CopyMode, EditedUnit, PcapRecord, ReaderState};

/// What a copy has for a unit that was read. `unit` must have exactly the bytes of the unit, and the state must be that
/// after it.
impl ReaderState {
    /// The unit of a packet with other captured bytes and another original length.
    ///
    /// The captured and the original length change, and in a block also both total lengths and the padding, which is
    /// then all zeros. Time, interface and options are unchanged.
    ///
    /// Returns `None` for a simple packet, whose block gives no captured length; if `packet` has more than
    /// [`PcapRecord::MAX_CAPTURED_LEN`] bytes; if `original_len` does not fit in 32 bits; and if the block would be
    /// longer than [`PcapngBlock::MAX_LEN`](crate::ether_pcap::PcapngBlock::MAX_LEN). If the unit is not a packet, nothing is
    /// claimed of the result.
    ///
    /// ```
    /// use etherpeel::ether_pcap::{EditedUnit, FileHeader, ReaderState};
    ///
    /// # fn main() -> Result<(), Box<dyn std::error::Error>> {
    /// let file = [
    ///     0xA1, 0xB2, 0xC3, 0xD4, 0x00, 0x02, 0x00, 0x04, 0x00, 0x00, 0x00, 0x00, // file header
    ///     0x00, 0x00, 0x00, 0x00, 0x00, 0x00, 0xFF, 0xFF, 0x00, 0x00, 0x00, 0x01, //
    ///     0x00, 0x00, 0x00, 0x01, 0x00, 0x00, 0x00, 0x02, 0x00, 0x00, 0x00, 0x03, 0x00, 0x00, 0x00, 0x3C, // record
    ///     0xAA, 0xBB, 0xCC,
    /// ];
    /// let state = ReaderState::Classic(FileHeader::from_slice(&file)?);
    /// let header = [
    ///     0x00, 0x00, 0x00, 0x01, 0x00, 0x00, 0x00, 0x02, 0x00, 0x00, 0x00, 0x02, 0x00, 0x00, 0x00, 0x3B,
    /// ];
    /// let packet = &[0xAA, 0xCC];
    /// let edited = state.edit_unit(&file[24..], packet, 59);
    /// assert_eq!(edited, Some(EditedUnit::Record { header, packet }));
    /// # Ok(())
    /// # }
    /// ```
    ///
    /// <details><summary>Contract</summary>
    ///
    /// ```text
    /// ensures edited { (most : ℕ) (interfaces : List CaptureInterface) → EditsUnit
    ///     (expectation_of most self.now interfaces)
    ///     unit.now (record { original_len = original_len; packet = packet.now }) result }
    /// ensures packet { (most : ℕ) (interfaces : List CaptureInterface) → HasEditedPacket
    ///     (expectation_of most self.now interfaces)
    ///     unit.now (record { original_len = original_len; packet = packet.now }) result }
    /// ensures padding { IfSome result (λ u. padding_of u ≤ 3) }
    /// ensures len { IfSome result (λ u. length (unit_bytes u) ≤ max_block_len) }
    /// ```
    ///
    /// Words: [`EditsUnit`](crate::definitions::ether_pcap#def.EditsUnit),
    /// [`expectation_of`](crate::definitions::ether_pcap#def.expectation_of),
    /// [`HasEditedPacket`](crate::definitions::ether_pcap#def.HasEditedPacket),
    /// [`padding_of`](crate::definitions::ether_pcap#def.padding_of),
    /// [`unit_bytes`](crate::definitions::ether_pcap#def.unit_bytes),
    /// [`max_block_len`](crate::definitions::ether_pcap#def.max_block_len). [Notation](crate::definitions::notation)
    ///
    /// </details>
    #[must_use]
    #[inline]
    pub fn edit_unit<'a>(
        &self,
        unit: &'a [u8],
        packet: &'a [u8],
        original_len: u64,
    ) -> Option<EditedUnit<'a>> {
        if packet.len() > PcapRecord::MAX_CAPTURED_LEN as usize
            || original_len > u64::from(u32::MAX)
        {
            return None;
        }
        let original_len = original_len as u32;
        match self {
            ReaderState::Nothing => None,
            ReaderState::Classic(header) => edited_record(header, unit, packet, original_len),
            ReaderState::Section(byte_order) => edited_block(
                *byte_order,
                unit,
                packet,
                original_len,
            ),
        }
    }

    /// The bytes that a copy has for a unit without a packet.
    ///
    /// With [`CopyMode::Exact`] they are copied as they are. With [`CopyMode::Changed`] the snap length of a file
    /// header or an interface description is raised, so that it is still a bound if an edit makes packets longer; a
    /// section header gives no section length; and a custom block of type
    /// [`PcapngBlock::UNCOPIED_CUSTOM`](crate::ether_pcap::PcapngBlock::UNCOPIED_CUSTOM) is left out.
    ///
    /// ```
    /// use etherpeel::ether_pcap::{CopiedUnit, CopyMode, FileHeader, ReaderState};
    ///
    /// # fn main() -> Result<(), Box<dyn std::error::Error>> {
    /// let header = [
    ///     0xA1, 0xB2, 0xC3, 0xD4, 0x00, 0x02, 0x00, 0x04, 0x00, 0x00, 0x00, 0x00, // file header
    ///     0x00, 0x00, 0x00, 0x00, 0x00, 0x00, 0x00, 0x60, 0x00, 0x00, 0x00, 0x01, //
    /// ];
    /// let state = ReaderState::Classic(FileHeader::from_slice(&header)?);
    /// let copied = state.copy_unit(CopyMode::Changed { raise: 4 }, &header);
    /// let wanted = CopiedUnit::SnapLen {
    ///     front: &header[..16],
    ///     snap_len: [0x00, 0x00, 0x00, 0x64],
    ///     rest: &header[20..],
    /// };
    /// assert_eq!(copied, wanted);
    /// # Ok(())
    /// # }
    /// ```
    ///
    /// <details><summary>Contract</summary>
    ///
    /// ```text
    /// ensures bytes { (most : ℕ) (interfaces : List CaptureInterface) (x : CaptureExpectation)
    ///     → Begins unit.now x (length unit.now) None (expectation_of most self.now interfaces)
    ///     → copied_bytes result
    ///     ≡ other_unit (copy_mode_view mode) (expectation_of most self.now interfaces) unit.now }
    /// ensures len { length (copied_bytes result) ≤ length unit.now }
    /// ```
    ///
    /// Words: [`CaptureExpectation`](crate::definitions::ether_pcap#def.CaptureExpectation),
    /// [`Begins`](crate::definitions::ether_pcap#def.Begins),
    /// [`expectation_of`](crate::definitions::ether_pcap#def.expectation_of),
    /// [`copied_bytes`](crate::definitions::ether_pcap#def.copied_bytes),
    /// [`other_unit`](crate::definitions::ether_pcap#def.other_unit),
    /// [`copy_mode_view`](crate::definitions::ether_pcap#def.copy_mode_view).
    /// [Notation](crate::definitions::notation)
    ///
    /// </details>
    #[must_use]
    #[inline]
    pub fn copy_unit<'a>(&self, mode: CopyMode, unit: &'a [u8]) -> CopiedUnit<'a> {
        match mode {
            CopyMode::Exact => CopiedUnit::Same(unit),
            CopyMode::Changed { raise } => self.changed_unit(raise, unit),
        }
    }

    /// The bytes that a changed copy has for a unit without a packet.
    #[inline]
    fn changed_unit<'a>(&self, raise: u32, unit: &'a [u8]) -> CopiedUnit<'a> {
        match self {
            ReaderState::Nothing => CopiedUnit::Same(unit),
            ReaderState::Classic(header) => changed_header(header, raise, unit),
            ReaderState::Section(_) if begins_section(unit) => changed_section(unit),
            ReaderState::Section(byte_order) => changed_block(*byte_order, raise, unit),
        }
    }

    /// Tests that a copy can have the unit of a packet that is not edited, unchanged.
    ///
    /// `packet` must be the unit's packet. The captured length of a simple packet is not stored: it follows from the
    /// snap length. So a simple packet that was cut can't be copied where the snap length is raised.
    ///
    /// <details><summary>Contract</summary>
    ///
    /// ```text
    /// ensures { (most : ℕ) (interfaces : List CaptureInterface) → Begins unit.now
    ///     (expectation_of most self.now interfaces)
    ///     (length unit.now) (Some (captured_packet_view packet.now))
    ///     (expectation_of most self.now interfaces)
    ///     → packet_unit (copy_mode_view mode) (expectation_of most self.now interfaces)
    ///     (captured_packet_view packet.now) unit.now
    ///     ≡ (if result then Some unit.now else None) }
    /// ```
    ///
    /// Words: [`Begins`](crate::definitions::ether_pcap#def.Begins),
    /// [`expectation_of`](crate::definitions::ether_pcap#def.expectation_of),
    /// [`captured_packet_view`](crate::definitions::ether_pcap#def.captured_packet_view),
    /// [`packet_unit`](crate::definitions::ether_pcap#def.packet_unit),
    /// [`copy_mode_view`](crate::definitions::ether_pcap#def.copy_mode_view).
    /// [Notation](crate::definitions::notation)
    ///
    /// </details>
    #[must_use]
    #[inline]
    pub fn copies_packet(&self, mode: CopyMode, unit: &[u8], packet: &CapturedPacket<'_>) -> bool {
        match (mode, self) {
            (CopyMode::Changed { raise }, ReaderState::Section(byte_order)) => {
                keeps_block(*byte_order, raise, unit, packet)
            }
            _ => true,
        }
    }
}
