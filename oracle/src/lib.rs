//! The sound unit as the given Rust has it, and what is needed to compare another unit with it.

#[macro_use]
extern crate savefile_derive;

// `constants` and `vsu`, the given files, at the paths that build.rs found
include!(concat!(env!("OUT_DIR"), "/modules.rs"));

pub mod bench;
pub mod chords;
pub mod console;
pub mod digest;
pub mod exchange;
pub mod explain;
pub mod fields;
pub mod image;
pub mod imagecases;
pub mod imagecheck;
pub mod listing;
pub mod log;
pub mod logcases;
pub mod logstream;
pub mod long;
pub mod pairlist;
pub mod pairs;
pub mod panels;
pub mod player;
pub mod process;
pub mod programs;
pub mod quick;
pub mod quicksample;
pub mod random;
pub mod reader;
pub mod recorder;
pub mod render;
pub mod replay;
pub mod run;
pub mod sample;
pub mod scenes;
pub mod scripts;
pub mod sorts;
pub mod state;
pub mod stems;
pub mod stemslog;
pub mod stream;
pub mod tunes;
pub mod unit;
pub mod wavlog;

pub use vsu::core::VSU;
