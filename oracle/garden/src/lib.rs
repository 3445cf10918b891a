//! The commit's own compiler, built from its text (build.rs) behind shims for what is missing, and programs to feed it with.
#![feature(allocator_api)]

// Each of the source's crates finds its names at the root of this one.
extern crate self as purple_garden_allocators;
extern crate self as purple_garden_ir;
extern crate self as purple_garden_jit;
extern crate self as purple_garden_runtime;
extern crate self as purple_garden_shared;

#[macro_export]
macro_rules! trace {
    ($($t:tt)*) => {};
}

include!(concat!(env!("OUT_DIR"), "/source.rs"));
mod facts;
pub mod shims;

pub use ir::*;
pub use op::{LookupTable, SwitchTable};
pub use shims::jit::*;
pub use shims::*;

pub mod check;
pub mod compile;
pub mod convert;
pub mod intervals;
pub mod model;
pub mod parse;
pub mod random;
pub mod rng;
pub mod rows;
pub mod words;
