//! What is under way, in order. Written by hand, not proved.
use std::collections::VecDeque;

/// What is under way: each has a number, comes back in any order, and is taken in the order of the numbers.
pub struct Window<T> {
    first: usize,
    places: VecDeque<Option<T>>,
}

impl<T> Window<T> {
    /// Nothing is under way.
    pub fn new() -> Self {
        Window { first: 0, places: VecDeque::new() }
    }

    /// How many are under way.
    pub fn len(&self) -> usize {
        self.places.len()
    }

    /// The number of another one that is under way from here on.
    pub fn begin(&mut self) -> usize {
        self.places.push_back(None);
        self.first + self.places.len() - 1
    }

    /// Puts one that came back to its place, unless it is forgotten.
    pub fn put(&mut self, number: usize, it: T) {
        let place = number.checked_sub(self.first).and_then(|index| self.places.get_mut(index));
        if let Some(place) = place {
            *place = Some(it);
        }
    }

    /// Takes the first one, if it came back.
    pub fn take(&mut self) -> Option<T> {
        let it = self.places.front_mut()?.take()?;
        self.places.pop_front();
        self.first += 1;
        Some(it)
    }

    /// Forgets all.
    pub fn forget(&mut self) {
        self.first += self.places.len();
        self.places.clear();
    }
}
