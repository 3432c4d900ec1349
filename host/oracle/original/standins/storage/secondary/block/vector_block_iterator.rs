// Stands in for vector_block_iterator.rs, which document 01 leaves out: block.rs names the module.
