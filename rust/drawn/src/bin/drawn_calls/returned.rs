//! What calls return, as numbers: of each value the number of its variant, and all its fields.
use crate::text::Text;
use arrayvec::ArrayVec;

/// A value that a call returns.
pub(crate) trait Returned {
    /// Adds the numbers of the value to a digest.
    fn add_to(&self, text: &mut Text);
}

macro_rules! numbers {
    ($($kind:ident)*) => { $(
        impl Returned for $kind {
            fn add_to(&self, text: &mut Text) {
                text.number(*self as u64);
            }
        }
    )* };
}

/// The numbers of a struct are those of its fields.
macro_rules! fields {
    ($($kind:ident $(<$($life:lifetime),*>)? { $($field:tt),* $(,)? })*) => { $(
        impl Returned for $kind $(<$($life),*>)? {
            fn add_to(&self, text: &mut Text) {
                $(self.$field.add_to(text);)*
            }
        }
    )* };
}

/// The numbers of an enum are that of the variant, and those of its fields.
macro_rules! variants {
    ($($kind:ident $(<$($life:lifetime),*>)? {
        $($number:literal $variant:ident $(($($at:ident),*))? $({ $($field:ident),* })?),* $(,)?
    })*) => { $(
        impl Returned for $kind $(<$($life),*>)? {
            fn add_to(&self, text: &mut Text) {
                match self {
                    $($kind::$variant $(($($at),*))? $({ $($field),* })? => {
                        text.number($number);
                        $($($at.add_to(text);)*)?
                        $($($field.add_to(text);)*)?
                    })*
                }
            }
        }
    )* };
}

/// The numbers of a value without public fields are those of what its methods return.
macro_rules! methods {
    ($($kind:ident $(<$($life:lifetime),*>)? { $($method:ident),* $(,)? })*) => { $(
        impl Returned for $kind $(<$($life),*>)? {
            fn add_to(&self, text: &mut Text) {
                $(self.$method().add_to(text);)*
            }
        }
    )* };
}

numbers! { u8 u16 u32 u64 usize bool }

impl<A: Returned, B: Returned> Returned for (A, B) {
    fn add_to(&self, text: &mut Text) {
        self.0.add_to(text);
        self.1.add_to(text);
    }
}

impl<A: Returned, B: Returned, C: Returned> Returned for (A, B, C) {
    fn add_to(&self, text: &mut Text) {
        self.0.add_to(text);
        self.1.add_to(text);
        self.2.add_to(text);
    }
}

impl<A: Returned, B: Returned, C: Returned, D: Returned> Returned for (A, B, C, D) {
    fn add_to(&self, text: &mut Text) {
        self.0.add_to(text);
        self.1.add_to(text);
        self.2.add_to(text);
        self.3.add_to(text);
    }
}

impl Returned for () {
    fn add_to(&self, text: &mut Text) {
        text.number(0);
    }
}

impl Returned for &str {
    fn add_to(&self, text: &mut Text) {
        self.as_bytes().add_to(text);
    }
}

impl<T: Returned> Returned for &T {
    fn add_to(&self, text: &mut Text) {
        (**self).add_to(text);
    }
}

impl<T: Returned> Returned for &mut T {
    fn add_to(&self, text: &mut Text) {
        (**self).add_to(text);
    }
}

impl<T: Returned> Returned for &mut [T] {
    fn add_to(&self, text: &mut Text) {
        (&**self).add_to(text);
    }
}

impl<T: Returned> Returned for &[T] {
    fn add_to(&self, text: &mut Text) {
        text.number(self.len() as u64);
        for item in self.iter() {
            item.add_to(text);
        }
    }
}

impl<T: Returned, const N: usize> Returned for [T; N] {
    fn add_to(&self, text: &mut Text) {
        self.as_slice().add_to(text);
    }
}

impl<T: Returned, const N: usize> Returned for ArrayVec<T, N> {
    fn add_to(&self, text: &mut Text) {
        self.as_slice().add_to(text);
    }
}

impl<T: Returned> Returned for Option<T> {
    fn add_to(&self, text: &mut Text) {
        match self {
            Some(value) => (true, value).add_to(text),
            None => false.add_to(text),
        }
    }
}

impl<T: Returned, E: Returned> Returned for Result<T, E> {
    fn add_to(&self, text: &mut Text) {
        match self {
            Ok(value) => (true, value).add_to(text),
            Err(error) => (false, error).add_to(text),
        }
    }
}

mod captures;
mod headers;
mod packets;
mod switch;
