//! The original's modules, as the build script put them together.

#![allow(warnings)]

include!(concat!(env!("OUT_DIR"), "/original.rs"));
