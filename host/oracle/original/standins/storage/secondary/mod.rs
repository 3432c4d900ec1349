// Stands in for storage/secondary/mod.rs: its two modules that matter here.
pub mod block;
pub mod encode;
mod statistics;

use super::StorageResult;
pub use encode::PrimitiveFixedWidthEncode;
