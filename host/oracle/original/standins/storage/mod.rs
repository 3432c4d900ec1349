// Stands in for storage/mod.rs: the errors that block.rs names for a block's checksum part, which document 01 leaves out.
pub mod secondary;

#[derive(Debug)]
pub struct TracedStorageError(pub &'static str);

impl TracedStorageError {
    pub fn decode(message: &'static str) -> Self {
        TracedStorageError(message)
    }
}

pub type StorageResult<T> = Result<T, TracedStorageError>;
