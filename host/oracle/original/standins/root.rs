// The root of the laid out crate: the original's three modules, as far as its block files use them.
pub mod array;
pub mod storage;
pub mod types;
