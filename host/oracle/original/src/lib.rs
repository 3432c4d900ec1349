//! The original's block builders and readers, from the files that build.rs laid out.
#![feature(portable_simd)]
#![allow(dead_code, unused_imports, unfulfilled_lint_expectations)]
include!(concat!(env!("OUT_DIR"), "/original/root.rs"));
