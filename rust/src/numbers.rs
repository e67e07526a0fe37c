//! A record as the list of numbers that crosses to the library, and back: those of the structs of
//! `include/friscurella.h`, in their order.

#[cfg(test)]
pub(crate) type Names = std::vec::Vec<std::string::String>;

/// A field, or a record of fields in the order of their numbers.
pub(crate) trait Numbers: Sized {
    /// How many numbers it has.
    const COUNT: usize;

    fn put(&self, put: &mut impl FnMut(i64));

    fn take(next: &mut impl FnMut() -> i64) -> Self;

    /// The name of each number, with the fields that lead to it.
    #[cfg(test)]
    fn names(at: &str, names: &mut Names);
}

macro_rules! number {
    ($($type:ident $take:expr;)+) => {
        $(impl Numbers for $type {
            const COUNT: usize = 1;

            fn put(&self, put: &mut impl FnMut(i64)) {
                put(i64::from(*self));
            }

            fn take(next: &mut impl FnMut() -> i64) -> Self {
                $take(next())
            }

            #[cfg(test)]
            fn names(at: &str, names: &mut Names) {
                names.push(at.into());
            }
        })+
    };
}

// A number that its field does not hold becomes the nearest that it does.
number! {
    bool |n| n != 0;
    u8 |n: i64| n.clamp(0, u8::MAX.into()) as u8;
    u32 |n: i64| n.clamp(0, u32::MAX.into()) as u32;
    i8 |n: i64| n.clamp(i8::MIN.into(), i8::MAX.into()) as i8;
    i16 |n: i64| n.clamp(i16::MIN.into(), i16::MAX.into()) as i16;
}

impl<T: Numbers, const N: usize> Numbers for [T; N] {
    const COUNT: usize = N * T::COUNT;

    fn put(&self, put: &mut impl FnMut(i64)) {
        for x in self {
            x.put(put);
        }
    }

    fn take(next: &mut impl FnMut() -> i64) -> Self {
        core::array::from_fn(|_| T::take(next))
    }

    #[cfg(test)]
    fn names(at: &str, names: &mut Names) {
        for i in 0..N {
            T::names(&std::format!("{at}[{i}]"), names);
        }
    }
}

/// A record of the standard: the order of its fields is the order of its numbers.
macro_rules! record {
    ($(#[$about:meta])* pub struct $record:ident {
        $($(#[$note:meta])* pub $field:ident: $type:ty,)+
    }) => {
        $(#[$about])*
        pub struct $record {
            $($(#[$note])* pub $field: $type,)+
        }

        impl Numbers for $record {
            const COUNT: usize = 0 $(+ <$type>::COUNT)+;

            fn put(&self, put: &mut impl FnMut(i64)) {
                $(self.$field.put(put);)+
            }

            fn take(next: &mut impl FnMut() -> i64) -> Self {
                $(let $field = <$type>::take(next);)+
                Self { $($field),+ }
            }

            #[cfg(test)]
            fn names(at: &str, names: &mut $crate::numbers::Names) {
                $(<$type>::names(&std::format!("{at}.{}", stringify!($field)), names);)+
            }
        }
    };
}
pub(crate) use record;

/// The numbers of a record whose fields have no sign.
pub(crate) fn unsigned<const N: usize>(record: &impl Numbers) -> [u32; N] {
    let mut numbers = [0; N];
    let mut at = numbers.iter_mut();
    record.put(&mut |n| {
        if let Some(place) = at.next() {
            *place = n as u32;
        }
    });
    numbers
}

/// The record of numbers that have no sign.
pub(crate) fn from_unsigned<T: Numbers>(numbers: &[u32]) -> T {
    let mut numbers = numbers.iter().copied().map(i64::from);
    T::take(&mut || numbers.next().unwrap_or(0))
}

/// The record of numbers that have a sign.
pub(crate) fn from_signed<T: Numbers>(numbers: &[i32]) -> T {
    let mut numbers = numbers.iter().copied().map(i64::from);
    T::take(&mut || numbers.next().unwrap_or(0))
}

/// The numbers of a part of the frame header: the context first. A number over 2^31 - 1 crosses as
/// -1, which counts as 2^32 - 1: every field of a part takes or refuses the two alike, and both need
/// 32 bits.
pub(crate) fn signed<const N: usize>(context: &impl Numbers, params: &impl Numbers) -> [i32; N] {
    let mut numbers = [0; N];
    let mut at = numbers.iter_mut();
    let mut put = |n| {
        if let Some(place) = at.next() {
            *place = i32::try_from(n).unwrap_or(-1);
        }
    };
    context.put(&mut put);
    params.put(&mut put);
    numbers
}
