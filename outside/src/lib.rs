//! The independent second reader of document 01 and the generator of the
//! files it is tried on. Nothing here is shared with the reader it checks.
//!
//! `compiled` is the way to the compiled judge, `fast` a judge written for
//! speed that it is measured against.

#![deny(unsafe_code)]

pub mod compiled;
pub mod fast;
pub mod generator;
pub mod reader;
