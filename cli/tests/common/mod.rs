//! What the tests of the program share: they start it as a person would, on files in a scratch folder of their own,
//! and compare what it says with the second reader's answers.

// Each test file is a program of its own that takes its share of these.
#![allow(dead_code, unused_imports)]

pub mod asked;
pub mod expected;
pub mod fifo;
pub mod info;
pub mod json;
pub mod members;
pub mod npy;
pub mod pages;
pub mod pipes;
pub mod program;
pub mod scratch;
pub mod seccomp;
pub mod sparse;
pub mod streams_kept;

pub use program::{arguments, run, run_with, started, Input, Ran};
pub use scratch::Scratch;
