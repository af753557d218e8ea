//! The patched module, the generated inputs and the forms of files, for the tools that hold the port against them.

#![allow(dead_code)]

pub mod accept;
pub mod account;
pub mod call;
pub mod generators;
pub mod input;
pub mod job;
mod mesh;
#[allow(clippy::too_many_arguments)] // its functions have the parameters of the published ones
pub mod patched;
pub mod preview;
pub mod random;
pub mod records;
pub mod replay;
pub mod replays;
pub mod sheet;
pub mod text;
pub mod trace;
