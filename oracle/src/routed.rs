//! The Rust modules with elementary functions, minimum and maximum from ours.
#![allow(dead_code, unused_imports, clippy::all)]

include!(concat!(env!("OUT_DIR"), "/routed.rs"));

/// The segments noted of the last scan, true height and ionogram, and the shapes
/// of the last profile.
mod noted {
    pub use crate::routing::{last_found, last_rows, last_tried, take_shapes};
}

#[path = "side.rs"]
pub mod side;
