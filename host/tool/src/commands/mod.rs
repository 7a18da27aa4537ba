//! The commands, a file each.

pub mod beacon;
mod begin;
pub mod books;
pub mod compare;
pub mod explain;
pub mod frames;
pub mod hex;
pub mod image;
pub mod key;
pub mod log;
pub mod plot;
pub mod read;
pub mod room;
pub mod show;
pub mod track;
pub mod uplink;
