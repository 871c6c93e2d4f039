//! The original sm-ir passes, a model of document 01's and 02's answers, and what is
//! needed to compare them with each other and with the proved library.

pub mod answers;
pub mod cells;
pub mod codec;
pub mod compare;
pub mod driver;
pub mod factors;
pub mod forms;
pub mod frontend;
pub mod generate;
pub mod joined;
pub mod leaves;
pub mod legacy_lowering;
pub mod library;
pub mod model;
pub mod numbered;
pub mod original;
pub mod packed;
pub mod pages;
pub mod program;
pub mod random;
pub mod release;
pub mod releases;
pub mod rest;
pub mod runs;
pub mod sample;
pub mod sealing;
pub mod shrink;
pub mod table;
pub mod words;

// `passes`: mod.rs, cleanup.rs and crystalfold.rs, unchanged, from their own folder.
include!(concat!(env!("OUT_DIR"), "/passes.rs"));
