//! The rules of document 01, written from it alone: plain, slow, and easy to hold against its text.
//!
//! Each module names the part of document 01 that it follows. Everything that solves does it by Gaussian elimination over all equations and all
//! unknowns at once.

pub mod bench;
pub mod compare;
pub mod corpus;
pub mod elimination;
pub mod equations;
pub mod field;
pub mod filling;
pub mod fractions;
pub mod pack;
pub mod refusal;
pub mod shape;
pub mod stripe;
pub mod text;

pub use equations::{test, Tested};
pub use filling::{fill, fill_parity};
pub use fractions::{cut, rebuild};
pub use pack::{read_pack, write_pack, Unpacked};
pub use refusal::Refusal;
pub use shape::{accepted_shapes, shape, Shape};
pub use stripe::{lay, read_back};
pub use text::text;
