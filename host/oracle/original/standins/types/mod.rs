// Stands in for types/mod.rs: the types that the block files use.
mod blob;
mod date;
mod interval;
mod native;
mod timestamp;
mod vector;

pub use self::blob::*;
pub use self::date::*;
pub use self::interval::*;
pub use self::native::*;
pub use self::timestamp::*;
pub use self::vector::*;

pub type F32 = ordered_float::OrderedFloat<f32>;
pub type F64 = ordered_float::OrderedFloat<f64>;
