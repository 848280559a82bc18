//! The oracle: the Rust's twelve files, unchanged, over a container and shims of ours.
//!
//! Their public calls stand at the root, as they do in the Rust. `parts` mounts the multigrid files a
//! second time, under a parent of ours, so that each step can be called alone.

mod building;
mod compute;
pub mod parts;

include!(concat!(env!("OUT_DIR"), "/mount.rs"));

pub use building::during_build;
pub use linear::*;
