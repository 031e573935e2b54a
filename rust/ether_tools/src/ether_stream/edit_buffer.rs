//! Memory for a packet that is edited.

use crate::ether_stream::{Grow, NoMemory};
use etherpeel::ether_content::{EditedPacket, PacketEdit, edit_packet};
use etherpeel::ether_pcap::CapturedPacket;

/// The least length of an [`EditBuffer`] in bytes: 4 more than the greatest of a captured packet.
const ROOM: usize = 262_148;

/// Memory for any packet of a capture that is edited.
pub struct EditBuffer<B: Grow> {
    memory: B,
}

impl<B: Grow> EditBuffer<B> {
    /// A buffer in this memory, which grows to 262,148 bytes at once. Returns [`NoMemory`] if that is refused.
    pub fn new(memory: B) -> Result<Self, NoMemory> {
        let mut memory = memory;
        memory.grow(ROOM)?;
        Ok(EditBuffer { memory })
    }

    /// Edits a packet, if there is an edit. Returns `None` if the packet is unchanged.
    pub(in crate::ether_stream) fn edit(
        &mut self,
        edit: Option<PacketEdit>,
        packet: &CapturedPacket<'_>,
    ) -> Option<EditedPacket> {
        match edit {
            Some(edit) => edit_in(self.memory.bytes_mut(), edit, packet),
            None => None,
        }
    }

    /// The captured bytes of a packet that was edited here.
    pub(in crate::ether_stream) fn packet(&self, edited: &EditedPacket) -> &[u8] {
        &self.memory.bytes()[edited.start..edited.end]
    }
}

/// Edits a packet in these bytes.
fn edit_in(bytes: &mut [u8], edit: PacketEdit, packet: &CapturedPacket<'_>) -> Option<EditedPacket> {
    match edit_packet(edit, packet, bytes) {
        Ok(edited) => edited,
        Err(_) => unreachable!(),
    }
}
