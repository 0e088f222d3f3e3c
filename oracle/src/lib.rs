//! The oracle: the unchanged Rust of docs/src behind document 01's rows, an independent history of the calls, and generators.
#![allow(dead_code)]

mod standins;
pub use standins::rcf;
use standins::samplerplustree;

include!(concat!(env!("OUT_DIR"), "/source.rs"));

pub mod alignment;
pub mod antt;
pub mod bench;
pub mod bits;
pub mod calls;
pub mod counts;
pub mod digits;
pub mod gap;
pub mod history;
pub mod imputation;
pub mod random;
pub mod reference;
pub mod roles;
pub mod settle;
pub mod settle_cases;
pub mod snapshot;
pub mod stranding;
pub mod texts;
pub mod vectors;
pub mod words;
