//! Document 01 in plain Rust, the numbers of its answers, the calls, their roles and banks as the library has them,
//! cases by a separate reading and random sheets, journals and banks to try both on, and memory that shows what a call
//! touches.
pub mod asks;
pub mod banks;
pub mod cases;
pub mod memory;
pub mod numbers;
pub mod plain;
pub mod random;
