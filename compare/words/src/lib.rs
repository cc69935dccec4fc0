//! Values as words of 64 bits. Each value of a type takes the same number of words, so that a field has one place.
pub mod bench;
pub mod calls;
pub mod iic;
pub mod layout;
pub mod rates;
pub mod sensor;

/// A value that can be written as words.
pub trait Put {
    const COUNT: usize;
    fn put(&self, out: &mut Vec<u64>);
}

/// A value that can be made of the words that `Put` wrote.
pub trait Take: Sized {
    fn take(from: &mut Reader) -> Self;
}

pub struct Reader<'a> {
    words: &'a [u64],
    at: usize,
}

impl<'a> Reader<'a> {
    pub fn new(words: &'a [u64]) -> Self {
        Self { words, at: 0 }
    }
    pub fn at(&self) -> usize {
        self.at
    }
    pub fn seek(&mut self, at: usize) {
        self.at = at;
    }
    pub fn word(&mut self) -> u64 {
        self.at += 1;
        self.words[self.at - 1]
    }
}

/// The largest of some counts, 0 of none.
pub const fn most(counts: &[usize]) -> usize {
    let (mut most, mut i) = (0, 0);
    while i < counts.len() {
        if counts[i] > most {
            most = counts[i];
        }
        i += 1;
    }
    most
}

macro_rules! one_word {
    ($($kind:ty),*) => {$(
        impl Put for $kind {
            const COUNT: usize = 1;
            fn put(&self, out: &mut Vec<u64>) {
                out.push(*self as u64);
            }
        }
        impl Take for $kind {
            fn take(from: &mut Reader) -> Self {
                from.word() as $kind
            }
        }
    )*};
}
one_word!(u8, u16, u32, u64);

impl Put for bool {
    const COUNT: usize = 1;
    fn put(&self, out: &mut Vec<u64>) {
        out.push(u64::from(*self));
    }
}
impl Take for bool {
    fn take(from: &mut Reader) -> Self {
        from.word() != 0
    }
}

/// The high word first: seconds, then the fraction.
impl Put for u128 {
    const COUNT: usize = 2;
    fn put(&self, out: &mut Vec<u64>) {
        out.extend(layout::halves(*self));
    }
}
impl Take for u128 {
    fn take(from: &mut Reader) -> Self {
        let high = from.word();
        layout::joined(high, from.word())
    }
}

impl<T: Put> Put for Option<T> {
    const COUNT: usize = 1 + T::COUNT;
    fn put(&self, out: &mut Vec<u64>) {
        let end = out.len() + Self::COUNT;
        out.push(u64::from(self.is_some()));
        if let Some(value) = self {
            value.put(out);
        }
        out.resize(end, 0);
    }
}
impl<T: Put + Take> Take for Option<T> {
    fn take(from: &mut Reader) -> Self {
        let end = from.at() + Self::COUNT;
        let value = (from.word() != 0).then(|| T::take(from));
        from.seek(end);
        value
    }
}

impl<T: Put, const N: usize> Put for [T; N] {
    const COUNT: usize = N * T::COUNT;
    fn put(&self, out: &mut Vec<u64>) {
        self.iter().for_each(|value| value.put(out));
    }
}
impl<T: Take, const N: usize> Take for [T; N] {
    fn take(from: &mut Reader) -> Self {
        core::array::from_fn(|_| T::take(from))
    }
}

/// The words of a value.
pub fn of(value: &impl Put) -> Vec<u64> {
    let mut out = Vec::new();
    value.put(&mut out);
    out
}
