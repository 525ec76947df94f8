// What the oracles on the given Rust share. Not every oracle uses all of it.
#![allow(dead_code)]

pub mod angles;
pub mod arguments;
pub mod fields;
pub mod generator;
pub mod list;
pub mod places;
pub mod refusals;
pub mod sizes;
pub mod sphere_slot;
pub mod values;
