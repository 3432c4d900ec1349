// Stands in for block_index_builder.rs, which document 01 leaves out: block.rs names the module.
