// Stands in for array/mod.rs: the two traits of arrays, with the functions that the block files and the two array files use,
// and the arrays' names.
use std::borrow::Borrow;

use bitvec::vec::BitVec;
use rust_decimal::Decimal;

use crate::types::{Date, F32, F64, Interval, Timestamp, TimestampTz, VectorRef};

mod primitive_array;
mod var_array;

pub use self::primitive_array::*;
pub use self::var_array::*;

pub trait ArrayBuilder: Sized + Send + Sync + 'static {
    type Array: Array<Builder = Self>;

    fn new() -> Self {
        Self::with_capacity(0)
    }
    fn extend_from_raw_data(&mut self, raw: &[<<Self::Array as Array>::Item as ToOwned>::Owned]);
    fn extend_from_nulls(&mut self, count: usize);
    fn replace_bitmap(&mut self, valid: BitVec);
    fn with_capacity(capacity: usize) -> Self;
    fn reserve(&mut self, capacity: usize);
    fn push(&mut self, value: Option<&<Self::Array as Array>::Item>) {
        self.push_n(1, value);
    }
    fn push_n(&mut self, n: usize, value: Option<&<Self::Array as Array>::Item>);
    fn append(&mut self, other: &Self::Array);
    fn take(&mut self) -> Self::Array;
    fn finish(mut self) -> Self::Array {
        self.take()
    }
}

pub trait Array: Sized + Send + Sync + 'static {
    type Builder: ArrayBuilder<Array = Self>;
    type Item: ToOwned + ?Sized;

    fn is_null(&self, idx: usize) -> bool;
    fn get_raw(&self, idx: usize) -> &Self::Item;
    fn len(&self) -> usize;
    fn get(&self, idx: usize) -> Option<&Self::Item> {
        if self.is_null(idx) { None } else { Some(self.get_raw(idx)) }
    }
    fn filter(&self, p: &[bool]) -> Self;
    fn iter(&self) -> impl DoubleEndedIterator<Item = Option<&Self::Item>> {
        (0..self.len()).map(|i| self.get(i))
    }
    fn raw_iter(&self) -> impl DoubleEndedIterator<Item = &Self::Item> {
        (0..self.len()).map(|i| self.get_raw(i))
    }
}

pub trait ArrayValidExt: Array {
    fn get_valid_bitmap(&self) -> &BitVec;
    fn get_valid_bitmap_mut(&mut self) -> &mut BitVec;
}

pub trait ArrayEstimateExt: Array {
    fn get_estimated_size(&self) -> usize;
}

pub trait ArrayFromDataExt: Array {
    fn from_data(data_iter: impl Iterator<Item = impl Borrow<Self::Item>>, valid: BitVec) -> Self;
}

pub mod ops {
    use bitvec::vec::BitVec;

    pub trait BitVecExt {
        fn from_bool_slice(bools: &[bool]) -> Self;
    }

    impl BitVecExt for BitVec {
        fn from_bool_slice(bools: &[bool]) -> Self {
            let mut bits = BitVec::with_capacity(bools.len());
            bools.iter().for_each(|bit| bits.push(*bit));
            bits
        }
    }
}

pub type BoolArray = PrimitiveArray<bool>;
pub type I16Array = PrimitiveArray<i16>;
pub type I32Array = PrimitiveArray<i32>;
pub type I64Array = PrimitiveArray<i64>;
pub type F32Array = PrimitiveArray<F32>;
pub type F64Array = PrimitiveArray<F64>;
pub type DecimalArray = PrimitiveArray<Decimal>;
pub type DateArray = PrimitiveArray<Date>;
pub type TimestampArray = PrimitiveArray<Timestamp>;
pub type TimestampTzArray = PrimitiveArray<TimestampTz>;
pub type IntervalArray = PrimitiveArray<Interval>;
pub type I32ArrayBuilder = PrimitiveArrayBuilder<i32>;
pub type VectorArray = VarArray<VectorRef, F64>;
