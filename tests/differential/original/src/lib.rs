//! The original files, with stand-ins for what they use and what is not among them. The names that they import from
//! `owl_dl_core`, `owl_dl_saturation`, `hashbrown` and their own crate's root are all names of this root.
#![allow(clippy::all, clippy::pedantic)]

extern crate self as hashbrown;
extern crate self as owl_dl_core;
extern crate self as owl_dl_saturation;

include!(concat!(env!("OUT_DIR"), "/files.rs"));
mod stand_ins;

pub use dropped::*;
pub use ir::*;
pub use ontology::*;
pub use stand_ins::*;
pub use verify::*;
