//! The independent second program: the law of documents 01 and 02, written out plainly.
//!
//! Written from the papers alone (documents 00, 01, 02, the readings, and RFC 9112 / RFC 9292 where 01
//! points to them). Nothing here was taken from, or looked up in, the Rattle crates.
//! The words in quotation marks are 01's or, at a rule that asks for an item, 02's; `R7` is point 7 of the
//! readings of 01, `S7` of those of 02.

#![allow(dead_code)]

pub mod binary;
pub mod bundle;
pub mod figures;
pub mod http1;
pub mod items;
pub mod message;
pub mod octets;
pub mod salvage;
pub mod steps;
pub mod streams;
pub mod sweep;
pub mod table;
pub mod target;
pub mod told;
pub mod writing;
