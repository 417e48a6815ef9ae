//! What the library does, in plain Rust written for speed: frames, a plan, a core, look-ups and slave machines. The benches
//! measure the library beside it.

#![allow(dead_code)]

pub mod core;
pub mod digest;
pub mod frames;
pub mod layout;
pub mod line;
pub mod machine;
pub mod plan;
#[path = "../../compare/shared/project_text.rs"]
pub mod project_text;
pub mod rows;
pub mod running;
pub mod sorted;
