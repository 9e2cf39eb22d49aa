// SPDX-License-Identifier: MIT
#![doc = include_str!("../README.md")]
#![no_std]

mod header;
#[cfg(feature = "sodium")]
pub mod sodium;

pub use header::*;
