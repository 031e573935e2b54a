//! Memory for the interfaces of a section. Written by hand, not proved.
use crate::ether_stream::{MAX_INTERFACES, SectionTable};
use crate::ether_capture::memory::{Global, NoMemory};
use etherpeel::ether_pcap::{CaptureInterface, InterfaceTable};

/// Memory for the interfaces of a section: 65,536 at most.
pub struct InterfaceBuffer {
    interfaces: Vec<CaptureInterface>,
}

impl InterfaceBuffer {
    /// Memory for 65,536 interfaces, with none in it. Returns [`NoMemory`] if it is refused.
    pub fn new(_alloc: Global) -> Result<Self, NoMemory> {
        let mut interfaces = Vec::new();
        match interfaces.try_reserve_exact(MAX_INTERFACES) {
            Ok(()) => Ok(InterfaceBuffer { interfaces }),
            Err(_) => Err(NoMemory),
        }
    }
}

impl InterfaceTable for InterfaceBuffer {
    fn interfaces(&self) -> &[CaptureInterface] {
        self.interfaces.as_slice()
    }

    fn add(&mut self, interface: CaptureInterface) -> bool {
        if self.interfaces.len() >= MAX_INTERFACES {
            return false;
        }
        self.interfaces.push(interface);
        true
    }

    fn remove_all(&mut self) {
        self.interfaces.clear();
    }
}

impl SectionTable for InterfaceBuffer {}
