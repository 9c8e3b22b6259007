#![doc = include_str!("../README.md")]

#[path = "../../../include/tribes.rs"]
mod tribes;

pub use tribes::*;
