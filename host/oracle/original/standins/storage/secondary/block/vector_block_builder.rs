// Stands in for vector_block_builder.rs, which document 01 leaves out: block.rs names the module.
