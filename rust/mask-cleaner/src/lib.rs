#![doc = include_str!("../README.md")]
#![deny(missing_docs)]
// nothing that panics
#![deny(
    clippy::arithmetic_side_effects,
    clippy::indexing_slicing,
    clippy::panic
)]
#![deny(clippy::expect_used, clippy::unwrap_used)]

mod ffi;
mod image;
mod job;
pub mod library;
mod quota;
mod record;
mod refusal;
mod table;

pub use image::Image;
pub use job::Job;
pub use quota::Quota;
pub use record::*;
pub use refusal::{Reason, Refusal};
pub use table::Table;
