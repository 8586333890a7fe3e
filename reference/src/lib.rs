//! An executor of CMF 0.4 menus, the marker and records of sittings, written from the papers: document 01, section 7 of document
//! 001, requests No. 1 to 3 of document 02, and the readings R1 to R33, R40 to R47 and R49 to R51.
//! Clear rather than fast: each call walks the whole image, and all the rest works on the menu that the walk found.

#![allow(clippy::large_enum_variant)]

pub mod calendar;
pub mod calls;
pub mod components;
pub mod fields;
pub mod generator;
pub mod image;
pub mod keys;
pub mod layout;
#[cfg(feature = "library")]
pub mod library;
pub mod marker;
pub mod picture;
pub mod random;
pub mod record;
pub mod refusal;
pub mod session;
pub mod statistics;
pub mod vectors;
pub mod walk;

pub use calls::{draw, event, open, option_text};
pub use marker::mark;
pub use refusal::Refusal;
pub use session::{Answer, Session};
