//! The Rust modules as they stand, with Rust's own elementary functions.
#![allow(dead_code, clippy::all)]

include!(concat!(env!("OUT_DIR"), "/voacap.rs"));

/// No segment and no shape is noted here.
mod noted {
    pub fn last_tried() -> u32 {
        0
    }
    pub fn last_found() -> u32 {
        0
    }
    pub fn last_rows() -> [u32; 30] {
        [0; 30]
    }
    pub fn take_shapes() -> Vec<crate::marks::Shapes> {
        Vec::new()
    }
}

#[path = "side.rs"]
pub mod side;
