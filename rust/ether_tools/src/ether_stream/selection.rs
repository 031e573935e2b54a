//! Which packets are chosen.

use etherpeel::ether_content::{decide, is_cut, is_undecided, selects};
use etherpeel::ether_filter::Filter;
use etherpeel::ether_pcap::CapturedPacket;

/// Which packets are chosen.
#[derive(Debug)]
pub struct Selection {
    /// Those that this filter selects.
    pub filter: Filter,
    /// What becomes of a packet that was cut so that its captured bytes don't decide that. With `None` the filter is
    /// applied to these bytes as if they were the whole packet.
    pub undecided: Option<Undecided>,
}

/// What becomes of a packet whose captured bytes don't decide whether a filter selects it.
#[derive(Clone, Copy, PartialEq, Eq, Debug)]
pub enum Undecided {
    /// It is chosen.
    Kept,
    /// It is not chosen.
    Dropped,
}

impl Undecided {
    /// Whether a packet is chosen, by whether it is selected; `None` if that is undecided.
    fn chooses(self, is_selected: Option<bool>) -> bool {
        match self {
            Undecided::Kept => is_selected.unwrap_or(true),
            Undecided::Dropped => is_selected.unwrap_or(false),
        }
    }
}

impl Selection {
    /// Tests that a packet is chosen.
    ///
    /// <details><summary>Contract</summary>
    ///
    /// ```text
    /// ensures { IsTrue result ↔ IsChosen (Some self.now) (captured_packet_view packet.now) }
    /// ```
    ///
    /// </details>
    pub fn chooses(&self, packet: &CapturedPacket<'_>) -> bool {
        match self.undecided {
            None => selects(&self.filter, packet),
            Some(undecided) => undecided.chooses(decide(&self.filter, packet)),
        }
    }

    /// Tests that the captured bytes of a packet don't decide whether the filter selects it.
    ///
    /// <details><summary>Contract</summary>
    ///
    /// ```text
    /// ensures { IsTrue result ↔ IsOpen (Some self.now) (captured_packet_view packet.now) }
    /// ```
    ///
    /// </details>
    #[inline(always)]
    pub fn leaves_open(&self, packet: &CapturedPacket<'_>) -> bool {
        is_cut(packet) && is_undecided(&self.filter, packet)
    }
}
