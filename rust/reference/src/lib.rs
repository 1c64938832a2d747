//! A second implementation of 01, sentence by sentence, for tests. It shares only plain data with the library.
//!
//! - [`table`]: masks as offsets, the check of a record, the file's reader and writer.
//! - [`image`]: images, the strict PBM reader and writer, the majority of three.
//! - [`strip`]: strips, the check of their parts, the parts' files.
//! - [`pass`]: covered, one pass, the plain rule, the preview.
//! - [`quota`]: opening a quota, the channel of a call, what a pass costs.
//! - [`job`]: load, load of three files and of a strip, pass, run, a channel's pass and run, view, figures, collect.
//! - [`model`]: the book beside a list of calls.
//! - [`fast`]: one pass as a programmer would write it at once.
//! - [`cases`]: tables, images and cuts into parts, for tests and benchmark.

pub mod cases;
pub mod fast;
pub mod image;
pub mod job;
pub mod model;
pub mod pass;
pub mod quota;
pub mod strip;
pub mod table;
