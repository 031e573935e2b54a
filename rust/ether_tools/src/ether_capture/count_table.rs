//! How many packets, and how many bytes, by keys. Written by hand, not proved.
//!
//! The texts of all keys follow each other in one vector, so that a million keys cost no million allocations. A table of
//! places, which hashes the texts, finds a key (open addressing).
use crate::ether_capture::count::Count;
use crate::ether_capture::memory::Global;
use crate::ether_capture::statistics_format::{StatisticsFormat, write_statistic};
use crate::ether_stream::NoMemory;
use etherpeel::ether_output::{OutputBuffer, Sink};
use std::collections::hash_map::RandomState;
use std::hash::BuildHasher;

/// A place that has no key.
const FREE: u32 = u32::MAX;

/// Counts by keys, which are texts.
pub struct CountTable {
    texts: Vec<u8>,
    /// For each key the end of its text, which begins where that of the key before ends, and its count.
    counts: Vec<(usize, Count)>,
    /// The numbers of keys. There are a power of two, or none, and at least a quarter of them are free.
    places: Vec<u32>,
    hashes: RandomState,
}

impl CountTable {
    /// A table with no key, which takes no memory.
    pub fn new(_alloc: Global) -> CountTable {
        CountTable { texts: Vec::new(), counts: Vec::new(), places: Vec::new(), hashes: RandomState::new() }
    }

    /// Counts more packets under a key.
    ///
    /// # Errors
    ///
    /// [`NoMemory`] at the key after 4,294,967,294 others. Without memory std ends the process.
    pub fn add(&mut self, key: &[u8], more: Count) -> Result<(), NoMemory> {
        let number = self.number_of(key)?;
        let count = &mut self.counts[number].1;
        *count = count.with(more);
        Ok(())
    }

    /// Sets the count under a key.
    ///
    /// # Errors
    ///
    /// As those of [`add`](Self::add).
    pub(crate) fn insert(&mut self, key: &[u8], count: Count) -> Result<(), NoMemory> {
        let number = self.number_of(key)?;
        self.counts[number].1 = count;
        Ok(())
    }

    /// Writes a line for each key, in the order of their bytes.
    pub fn write<W: Sink>(&self, format: StatisticsFormat, out: &mut OutputBuffer<'_, W>) {
        let mut numbers: Vec<u32> = (0..self.counts.len() as u32).collect();
        numbers.sort_unstable_by_key(|number| self.text(*number as usize));
        for number in numbers {
            let number = number as usize;
            write_statistic(format, self.text(number), self.counts[number].1, out);
        }
    }

    fn text(&self, number: usize) -> &[u8] {
        let start = if number == 0 { 0 } else { self.counts[number - 1].0 };
        &self.texts[start..self.counts[number].0]
    }

    /// The number of a key, which is a new one with no packets if the table does not have it.
    fn number_of(&mut self, key: &[u8]) -> Result<usize, NoMemory> {
        if self.counts.len() >= self.places.len() / 4 * 3 {
            self.grow()?;
        }
        let place = self.place_of(key);
        if self.places[place] == FREE {
            self.places[place] = self.counts.len() as u32;
            self.texts.extend_from_slice(key);
            self.counts.push((self.texts.len(), Count { packets: 0, bytes: 0 }));
        }
        Ok(self.places[place] as usize)
    }

    /// The place that has a key, or the free one for it.
    fn place_of(&self, key: &[u8]) -> usize {
        let last = self.places.len() - 1;
        let mut place = self.hashes.hash_one(key) as usize & last;
        while self.places[place] != FREE && self.text(self.places[place] as usize) != key {
            place = (place + 1) & last;
        }
        place
    }

    /// Doubles the places.
    fn grow(&mut self) -> Result<(), NoMemory> {
        let len = (self.places.len() * 2).max(16);
        if len > FREE as usize {
            return Err(NoMemory);
        }
        self.places = Vec::new();
        self.places.resize(len, FREE);
        for number in 0..self.counts.len() {
            let place = self.place_of(self.text(number));
            self.places[place] = number as u32;
        }
        Ok(())
    }
}
