//! What stands for the allocator, and lists and texts that may be refused memory. Written by hand, not proved.

/// The allocator of std, which has no name there.
#[derive(Clone, Copy)]
pub struct Global;

/// Memory was refused.
#[derive(Debug, thiserror::Error)]
#[error("out of memory")]
pub struct AllocError;

/// A list that says if it gets no memory.
pub trait Taking<T> {
    /// Appends a value.
    fn try_push(&mut self, value: T) -> Result<(), AllocError>;

    /// Appends values.
    fn try_extend_from_slice(&mut self, values: &[T]) -> Result<(), AllocError>;
}

impl<T: Clone> Taking<T> for Vec<T> {
    fn try_push(&mut self, value: T) -> Result<(), AllocError> {
        self.try_reserve(1).map_err(|_| AllocError)?;
        self.push(value);
        Ok(())
    }

    fn try_extend_from_slice(&mut self, values: &[T]) -> Result<(), AllocError> {
        self.try_reserve(values.len()).map_err(|_| AllocError)?;
        self.extend_from_slice(values);
        Ok(())
    }
}

/// A list without values, which takes no memory.
pub fn list<T>(_alloc: Global) -> Vec<T> {
    Vec::new()
}

/// A list with memory for some values.
pub fn list_for<T>(_alloc: Global, len: usize) -> Result<Vec<T>, AllocError> {
    let mut list = Vec::new();
    list.try_reserve(len).map_err(|_| AllocError)?;
    Ok(list)
}

/// A text of its own.
pub fn text_of(_alloc: Global, text: &str) -> Result<String, AllocError> {
    let mut copy = String::new();
    copy.try_reserve(text.len()).map_err(|_| AllocError)?;
    copy.push_str(text);
    Ok(copy)
}
