//! Bridges, which learn from frames and decide where each goes.

use crate::ether_switch::arrival::{Arrived, address_of, arrive, read_front, refusal};
use crate::ether_switch::stations::{find, learn, port_of};
use crate::ether_switch::vlan_config::row;
use crate::ether_switch::{
    BridgeKind, Discarded, PortConfig, PortSet, PortStates, Received, Sighting, StationBucket,
    Vlan, VlanConfig,
};
use crate::ether_packet::EthernetFront;

/// Where frames to an address in a VLAN go, whatever the bridge has learned (IEEE 802.1Q, 8.8.1).
///
/// Each bit pattern is a value.
#[cfg_attr(feature = "serde", derive(serde::Serialize, serde::Deserialize))]
#[repr(C)]
#[derive(Clone, Copy, PartialEq, Eq, Hash, Debug)]
pub struct StaticEntry {
    /// The ports through which they leave, if these are members of the VLAN.
    pub ports: PortSet,
    /// The address of a station or a group.
    pub address: [u8; 6],
    /// The identifier of the VLAN.
    pub vid: u16,
}

/// A bridge. Its ports, and what it has learned, are arguments of its calls.
#[derive(Clone, Copy, PartialEq, Eq, Debug)]
pub struct Bridge<'a> {
    /// Which tags it reads and writes.
    pub kind: BridgeKind,
    /// The number of seconds for which the bridge relies on a station's last sighting (IEEE 802.1Q, 8.8.3).
    pub ageing_time: u32,
    /// The key of the hash that chooses a station's buckets. With a random one nobody who does not know it can choose
    /// addresses that have the same buckets.
    pub key: [u64; 2],
    /// What its ports may do now.
    pub ports: &'a PortStates,
    /// Its VLANs, each at the index of its identifier. Those that are not in the slice have no ports.
    pub vlans: &'a [VlanConfig],
    /// Where the frames to some addresses go. The first entry for an address and VLAN counts. Each frame is compared
    /// with the entries in turn.
    pub static_entries: &'a [StaticEntry],
    /// Which reserved addresses it forwards, against the standard: bit `i` is for the address 01-80-C2-00-00-0i.
    pub forwarded: u16,
}

impl Bridge<'_> {
    /// The ageing time that the standard recommends: 300 seconds (IEEE 802.1Q, 8.8.3).
    pub const AGEING_TIME: u32 = 300;

    /// Learns the source of a frame that came in by a port, and decides where the frame goes.
    ///
    /// `now` is the time in seconds, by a clock that does not go back. `from` is the number of the port. The frame
    /// begins with an Ethernet II header and has no frame check sequence. What follows the ether type after its tag is
    /// not read.
    ///
    /// The frame's VLAN is that of its tag. Without a tag, or with a tag that has only a priority (identifier 0), it
    /// is the port's own VLAN ([`PortConfig::pvid`]). A tag of another kind of bridge is payload, for example 0x88A8
    /// for a customer bridge.
    ///
    /// A frame leaves only by ports that are members of its VLAN and forwarding, and not by the one through which it
    /// came in. Of these ports, a frame to a station leaves by the one at which the station was seen last in this VLAN, if
    /// that was at most the ageing time ago. Any other frame leaves by all of them. A static entry has precedence.
    ///
    /// The source is learned in the part of the table that its VLAN has, if the port is learning and accepts the
    /// frame. No other part of the table is read or written. If both buckets of a station are full, the new station
    /// takes the place of one whose port has most stations there, so that no port can push out those of another that
    /// has fewer.
    ///
    /// A frame to a reserved address is for the bridge itself ([`Received::reserved`]), whatever the port accepts and
    /// in whatever state it is.
    ///
    /// `table` is an array of [`StationBucket::EMPTY`] at first. Other than by [`forget`](crate::ether_switch::forget) and by calls
    /// with the same key and parts, nothing should write to it.
    ///
    /// # Errors
    ///
    /// Why the bridge discards the frame: the first [`Discarded`] that applies.
    ///
    /// # Examples
    ///
    /// ```
    /// use etherpeel::ether_switch::{
    ///     Bridge, BridgeKind, PortConfig, PortSet, PortStates, StationBucket, Vlan, VlanConfig,
    /// };
    ///
    /// # fn main() -> Result<(), Box<dyn std::error::Error>> {
    /// let vlan = Vlan::try_new(10)?;
    /// let port = PortConfig::access(vlan);
    /// let request = [0xFF, 0xFF, 0xFF, 0xFF, 0xFF, 0xFF, 0x02, 0x00, 0x00, 0x00, 0x00, 0x01, 0x08, 0x06];
    /// let reply = [0x02, 0x00, 0x00, 0x00, 0x00, 0x01, 0x02, 0x00, 0x00, 0x00, 0x00, 0x02, 0x08, 0x06];
    /// let mut ports = PortSet::NONE;
    /// for number in 1..4 {
    ///     ports.insert(number);
    /// }
    /// let states = PortStates {
    ///     learning: ports,
    ///     forwarding: ports,
    ///     ..PortStates::NONE
    /// };
    /// let mut vlans = [VlanConfig::NONE; 11];
    /// vlans[10] = VlanConfig {
    ///     members: ports,
    ///     untagged: ports,
    ///     first_bucket: 0,
    ///     buckets: 64,
    /// };
    /// let bridge = Bridge {
    ///     kind: BridgeKind::Customer,
    ///     ageing_time: Bridge::AGEING_TIME,
    ///     key: [0x0706050403020100, 0x0F0E0D0C0B0A0908],
    ///     ports: &states,
    ///     vlans: &vlans,
    ///     static_entries: &[],
    ///     forwarded: 0,
    /// };
    /// let mut table = [StationBucket::EMPTY; 64];
    /// let first = bridge.receive(&mut table, 0, 1, &port, &request);
    /// assert!(first.is_ok_and(|it| it.untagged.contains(2) && it.untagged.contains(3) && !it.untagged.contains(1)));
    /// let second = bridge.receive(&mut table, 300, 2, &port, &reply);
    /// assert!(second.is_ok_and(|it| it.untagged == PortSet::only(1)));
    /// let third = bridge.receive(&mut table, 301, 2, &port, &reply);
    /// assert!(third.is_ok_and(|it| it.untagged.contains(1) && it.untagged.contains(3)));
    /// # Ok(())
    /// # }
    /// ```
    ///
    /// <details><summary>Contract</summary>
    ///
    /// ```text
    /// ensures { (hs : List Header) (e : Ending)
    ///     → Walk (start_of starts.Ethernet2) frame.now hs e
    ///     → let event : Event = record {
    ///       settings = settings_of self.now;
    ///       now = now;
    ///       from = from;
    ///       port = port.now;
    ///       hs = hs;
    ///     } in
    ///     Returns (answer event table.old) result × (table.new ≡ after event table.old) }
    /// ```
    ///
    /// Words: [`Header`](crate::definitions::ether_base#def.Header),
    /// [`Ending`](crate::definitions::ether_peel#def.Ending), [`Walk`](crate::definitions::ether_peel#def.Walk),
    /// [`start_of`](crate::definitions::ether_peel#def.start_of), `starts` (`Start`),
    /// [`Event`](crate::definitions::ether_switch#def.Event),
    /// [`settings_of`](crate::definitions::ether_switch#def.settings_of),
    /// [`Returns`](crate::definitions::ether_switch#def.Returns),
    /// [`answer`](crate::definitions::ether_switch#def.answer),
    /// [`after`](crate::definitions::ether_switch#def.after). [Notation](crate::definitions::notation)
    ///
    /// </details>
    #[inline]
    pub fn receive(
        &self,
        table: &mut [StationBucket],
        now: u32,
        from: u8,
        port: &PortConfig,
        frame: &[u8],
    ) -> Result<Received, Discarded> {
        match read_front(self.kind, frame) {
            Ok(front) => self.receive_front(table, now, from, port, &front),
            Err(reason) => Err(reason),
        }
    }

    /// Does as `receive` with a frame whose header and tag were read.
    #[inline]
    fn receive_front(
        &self,
        table: &mut [StationBucket],
        now: u32,
        from: u8,
        port: &PortConfig,
        front: &EthernetFront,
    ) -> Result<Received, Discarded> {
        let arrived = arrive(port, front)?;
        let vlan = row(self.vlans, arrived.vlan);
        let refused = refusal(self.kind, port, vlan.members.contains(from), front);
        self.teach(table, now, from, refused, vlan, &arrived);
        let known = port_of(
            table,
            self.key,
            vlan,
            arrived.destination,
            self.ageing_time,
            now,
        );
        self.answer(from, refused, &arrived, vlan, known)
    }

    /// The last sighting of a station in a VLAN, if the table has it. It may have aged.
    ///
    /// <details><summary>Contract</summary>
    ///
    /// ```text
    /// ensures { result ≡ sighting_of self.now.key (row_of self.now.vlans.now vlan) (number address) table.now }
    /// ```
    ///
    /// Words: [`sighting_of`](crate::definitions::ether_switch#def.sighting_of),
    /// [`row_of`](crate::definitions::ether_switch#def.row_of),
    /// [`number`](crate::definitions::ether_base#def.number). [Notation](crate::definitions::notation)
    ///
    /// </details>
    #[must_use]
    #[inline]
    pub fn sighting(
        &self,
        table: &[StationBucket],
        vlan: Vlan,
        address: [u8; 6],
    ) -> Option<Sighting> {
        find(table, self.key, row(self.vlans, vlan), address_of(address))
    }

    /// Learns the source of a frame, unless the port refuses it or is not learning.
    #[inline]
    fn teach(
        &self,
        table: &mut [StationBucket],
        now: u32,
        from: u8,
        refused: Option<Discarded>,
        vlan: &VlanConfig,
        arrived: &Arrived,
    ) {
        if refused.is_some() || !self.ports.learning.contains(from) {
            return;
        }
        let sighting = Sighting {
            address: arrived.source,
            time: now,
            port: from,
        };
        learn(table, self.key, vlan, sighting, self.ageing_time);
    }

    /// What is returned for a frame. `known` is the port at which its destination is known to be.
    #[inline]
    fn answer(
        &self,
        from: u8,
        refused: Option<Discarded>,
        arrived: &Arrived,
        vlan: &VlanConfig,
        known: Option<u8>,
    ) -> Result<Received, Discarded> {
        if self.keeps(arrived.destination) {
            return Ok(self.received(arrived, true, PortSet::NONE, PortSet::NONE));
        }
        if let Some(reason) = refused {
            return Err(reason);
        }
        if !self.ports.forwarding.contains(from) {
            return Err(Discarded::PortState);
        }
        Ok(self.relay(from, arrived, vlan, known))
    }

    /// Whether frames to an address are for the bridge itself.
    #[inline]
    fn keeps(&self, address: u64) -> bool {
        self.kind.reserves(address) && (self.forwarded >> (address % 16)) & 1 != 1
    }

    /// What is returned for a frame that is passed on.
    #[inline]
    fn relay(&self, from: u8, arrived: &Arrived, vlan: &VlanConfig, known: Option<u8>) -> Received {
        let leaves = self.leaves(from, arrived, vlan, known);
        let mut mirrors = self.ports.mirrors;
        mirrors.remove(from);
        let tagged = mirrors.union(&leaves.difference(&vlan.untagged));
        let untagged = leaves.intersection(&vlan.untagged).difference(&mirrors);
        self.received(arrived, false, tagged, untagged)
    }

    /// The ports through which a frame leaves, copies for mirrors aside.
    #[inline]
    fn leaves(&self, from: u8, arrived: &Arrived, vlan: &VlanConfig, known: Option<u8>) -> PortSet {
        let open = self.open(from, vlan);
        if let Some(ports) = static_ports(self.static_entries, arrived.vlan, arrived.destination) {
            return open.intersection(&ports);
        }
        match known {
            Some(port) => open.intersection(&PortSet::only(port)),
            None => open,
        }
    }

    /// The ports through which frames of a VLAN from one port may leave.
    #[inline]
    fn open(&self, from: u8, vlan: &VlanConfig) -> PortSet {
        let mut open = vlan.members.intersection(&self.ports.forwarding);
        open.remove(from);
        if self.ports.isolated.contains(from) {
            return open.difference(&self.ports.isolated);
        }
        open
    }

    /// What is returned for a frame that leaves by these ports.
    #[inline]
    fn received(
        &self,
        arrived: &Arrived,
        reserved: bool,
        tagged: PortSet,
        untagged: PortSet,
    ) -> Received {
        Received {
            kind: self.kind,
            vlan: arrived.vlan,
            priority: arrived.priority,
            drop_eligible: arrived.drop_eligible,
            reserved,
            tagged,
            untagged,
        }
    }
}

/// The ports of the first entry for an address in a VLAN; `None` if there is no entry.
#[inline]
fn static_ports(entries: &[StaticEntry], vlan: Vlan, address: u64) -> Option<PortSet> {
    entries
        .iter()
        .find(|entry| entry.vid == vlan.id().value() && address_of(entry.address) == address)
        .map(|entry| entry.ports)
}
