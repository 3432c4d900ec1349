//! Stands in for bitvec, which Debian doesn't have: lists of bits in words, the lowest bit first, with the few functions that
//! the original's block and array files call. Words are taken to be little-endian, so bit i is bit i mod 8 of byte i / 8.
use std::fmt::{Debug, Formatter};
use std::hash::{Hash, Hasher};
use std::marker::PhantomData;
use std::ops::{Deref, Index, Range};

pub mod prelude {
    pub use super::{BitSlice, BitVec, Lsb0};
}

pub mod slice {
    pub use super::BitSlice;
}

pub mod vec {
    pub use super::BitVec;
}

#[derive(Debug, Clone, Copy, PartialEq, Eq, PartialOrd, Ord, Hash, Default)]
pub struct Lsb0;

/// A word of bits.
pub trait Word: Copy + Default {
    const BITS: usize;
    fn with(self, bit: usize, value: bool) -> Self;
}

macro_rules! word {
    ($name:ty) => {
        impl Word for $name {
            const BITS: usize = <$name>::BITS as usize;

            #[inline]
            fn with(self, bit: usize, value: bool) -> Self {
                (self & !(1 << bit)) | ((value as $name) << bit)
            }
        }
    };
}

word!(u8);
word!(usize);

/// Bits that lie in memory from a bit of a byte on. A reference is the byte's address and, as the slice's length, the number
/// of bits times 8 plus the bit.
#[repr(transparent)]
pub struct BitSlice<T = usize, O = Lsb0> {
    kind: PhantomData<(T, O)>,
    memory: [()],
}

impl<T, O> BitSlice<T, O> {
    /// # Safety
    /// The bits lie in memory that lives as long as the answer.
    #[inline]
    unsafe fn at<'a>(bytes: *const u8, head: usize, bits: usize) -> &'a Self {
        let memory = std::ptr::slice_from_raw_parts(bytes.wrapping_add(head / 8) as *const (), bits * 8 + head % 8);
        unsafe { &*(memory as *const Self) }
    }

    #[inline]
    pub fn from_slice(words: &[T]) -> &Self {
        unsafe { Self::at(words.as_ptr() as *const u8, 0, std::mem::size_of_val(words) * 8) }
    }

    #[inline]
    fn bytes(&self) -> *const u8 {
        self.memory.as_ptr() as *const u8
    }

    #[inline]
    fn head(&self) -> usize {
        self.memory.len() % 8
    }

    #[inline]
    pub fn len(&self) -> usize {
        self.memory.len() / 8
    }

    #[inline]
    pub fn is_empty(&self) -> bool {
        self.len() == 0
    }

    /// # Safety
    /// `place` is below the length.
    #[inline]
    pub unsafe fn get_unchecked(&self, place: usize) -> &bool {
        let bit = self.head() + place;
        let byte = unsafe { *self.bytes().add(bit / 8) };
        if byte >> (bit % 8) & 1 == 1 {
            &true
        } else {
            &false
        }
    }

    #[inline]
    pub fn iter(&self) -> impl Iterator<Item = &bool> {
        (0..self.len()).map(|place| &self[place])
    }
}

impl<T, O> Index<usize> for BitSlice<T, O> {
    type Output = bool;

    #[inline]
    fn index(&self, place: usize) -> &bool {
        assert!(place < self.len(), "bit {place} of {}", self.len());
        unsafe { self.get_unchecked(place) }
    }
}

impl<T, O> Index<Range<usize>> for BitSlice<T, O> {
    type Output = BitSlice<T, O>;

    #[inline]
    fn index(&self, range: Range<usize>) -> &Self {
        assert!(range.start <= range.end && range.end <= self.len(), "bits {range:?} of {}", self.len());
        unsafe { Self::at(self.bytes(), self.head() + range.start, range.end - range.start) }
    }
}

/// A list of bits.
pub struct BitVec<T = usize, O = Lsb0> {
    words: Vec<T>,
    bits: usize,
    order: PhantomData<O>,
}

impl<T: Word, O> BitVec<T, O> {
    pub fn new() -> Self {
        Self::with_capacity(0)
    }

    pub fn with_capacity(bits: usize) -> Self {
        BitVec { words: Vec::with_capacity(bits.div_ceil(T::BITS)), bits: 0, order: PhantomData }
    }

    pub fn repeat(bit: bool, count: usize) -> Self {
        let mut all = Self::with_capacity(count);
        all.resize(count, bit);
        all
    }

    pub fn reserve(&mut self, bits: usize) {
        self.words.reserve((self.bits + bits).div_ceil(T::BITS) - self.words.len());
    }

    #[inline]
    pub fn push(&mut self, bit: bool) {
        let within = self.bits % T::BITS;
        if within == 0 {
            self.words.push(T::default().with(0, bit));
        } else {
            let last = self.words.len() - 1;
            self.words[last] = self.words[last].with(within, bit);
        }
        self.bits += 1;
    }

    /// Makes the list longer: no caller makes it shorter.
    pub fn resize(&mut self, bits: usize, bit: bool) {
        assert!(self.bits <= bits);
        (self.bits..bits).for_each(|_| self.push(bit));
    }

    pub fn extend_from_bitslice<U, P>(&mut self, other: &BitSlice<U, P>) {
        other.iter().for_each(|bit| self.push(*bit));
    }

    pub fn as_raw_slice(&self) -> &[T] {
        &self.words
    }
}

impl<T, O> Deref for BitVec<T, O> {
    type Target = BitSlice<T, O>;

    #[inline]
    fn deref(&self) -> &BitSlice<T, O> {
        unsafe { BitSlice::at(self.words.as_ptr() as *const u8, 0, self.bits) }
    }
}

impl<T: Word, O> Default for BitVec<T, O> {
    fn default() -> Self {
        Self::new()
    }
}

impl<T: Clone, O> Clone for BitVec<T, O> {
    fn clone(&self) -> Self {
        BitVec { words: self.words.clone(), bits: self.bits, order: PhantomData }
    }
}

impl<T, O> Debug for BitVec<T, O> {
    fn fmt(&self, f: &mut Formatter<'_>) -> std::fmt::Result {
        f.debug_list().entries(self.iter()).finish()
    }
}

impl<T, O> PartialEq for BitVec<T, O> {
    fn eq(&self, other: &Self) -> bool {
        self.iter().eq(other.iter())
    }
}

impl<T, O> Eq for BitVec<T, O> {}

impl<T, O> PartialOrd for BitVec<T, O> {
    fn partial_cmp(&self, other: &Self) -> Option<std::cmp::Ordering> {
        Some(self.cmp(other))
    }
}

impl<T, O> Ord for BitVec<T, O> {
    fn cmp(&self, other: &Self) -> std::cmp::Ordering {
        self.iter().cmp(other.iter())
    }
}

impl<T, O> Hash for BitVec<T, O> {
    fn hash<H: Hasher>(&self, state: &mut H) {
        self.iter().for_each(|bit| bit.hash(state));
    }
}

impl<T, O> serde::Serialize for BitVec<T, O> {
    fn serialize<S: serde::Serializer>(&self, _to: S) -> Result<S::Ok, S::Error> {
        unreachable!("no block file stores an array")
    }
}

impl<'de, T, O> serde::Deserialize<'de> for BitVec<T, O> {
    fn deserialize<D: serde::Deserializer<'de>>(_from: D) -> Result<Self, D::Error> {
        unreachable!("no block file loads an array")
    }
}
