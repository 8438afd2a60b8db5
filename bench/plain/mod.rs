//! What the plain programs share; each takes a part of it.
#![allow(dead_code)]

pub mod checking;
pub mod files;
pub mod full_disk;
pub mod keeping;
pub mod log;
pub mod messages;
pub mod mirror;
pub mod pictures;
pub mod places;
pub mod sha256;
pub mod sheets;
pub mod shop;
