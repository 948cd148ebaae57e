//! Tests of the library through the safe interface.

mod blocks;
mod cases;
mod common;
mod stack;
