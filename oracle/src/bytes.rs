//! Values as bytes: low byte first, every field at the full width of its type.

/// A value that stands in a trace at a width of its own.
pub trait Field: Sized {
    fn put(&self, out: &mut Vec<u8>);
    /// Takes the value off the front of `from`; `None` where the bytes don't give one.
    fn take(from: &mut &[u8]) -> Option<Self>;
}

macro_rules! numbers {
    ($($number:ty),*) => {$(
        impl Field for $number {
            fn put(&self, out: &mut Vec<u8>) {
                out.extend(self.to_le_bytes());
            }

            fn take(from: &mut &[u8]) -> Option<Self> {
                let (bytes, rest) = from.split_first_chunk()?;
                *from = rest;
                Some(<$number>::from_le_bytes(*bytes))
            }
        }
    )*};
}

numbers!(u8, i8, u16, u32, u64);

/// Eight bytes, as on the machines that the port runs on.
impl Field for usize {
    fn put(&self, out: &mut Vec<u8>) {
        (*self as u64).put(out);
    }

    fn take(from: &mut &[u8]) -> Option<Self> {
        usize::try_from(u64::take(from)?).ok()
    }
}

impl Field for bool {
    fn put(&self, out: &mut Vec<u8>) {
        out.push(u8::from(*self));
    }

    fn take(from: &mut &[u8]) -> Option<Self> {
        match u8::take(from)? {
            0 => Some(false),
            1 => Some(true),
            _ => None,
        }
    }
}

impl<T: Field, const N: usize> Field for [T; N] {
    fn put(&self, out: &mut Vec<u8>) {
        self.iter().for_each(|item| item.put(out));
    }

    fn take(from: &mut &[u8]) -> Option<Self> {
        let items: Option<Vec<T>> = (0..N).map(|_| T::take(from)).collect();
        items?.try_into().ok()
    }
}

/// All of `from` as values, one behind the other.
pub fn take_all<T: Field>(mut from: &[u8]) -> Option<Vec<T>> {
    let mut items = Vec::new();
    while !from.is_empty() {
        items.push(T::take(&mut from)?);
    }
    Some(items)
}

/// A struct is its fields in order.
macro_rules! fields {
    ($name:ident { $($field:ident),* }) => {
        impl $crate::bytes::Field for $name {
            fn put(&self, out: &mut Vec<u8>) {
                $($crate::bytes::Field::put(&self.$field, out);)*
            }

            fn take(from: &mut &[u8]) -> Option<Self> {
                Some($name { $($field: $crate::bytes::Field::take(from)?),* })
            }
        }
    };
}

pub(crate) use fields;
