//! Seamtrout from Rust: [`Seamtrout`] is a safe wrapper over the proved archive, [`raw`] its
//! declarations, and [`model`] an independent reading of the same papers, in plain Rust, that the
//! tests hold the archive against.

pub mod model;
pub mod raw;
mod wrapper;

pub use wrapper::{activate, hand_up, image_check, search, Seamtrout, Service};
