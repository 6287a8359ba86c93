//! Compares the proved model, through its C library and its program, with the independent model of `model`.
pub mod chance;
pub mod coverage;
pub mod difference;
pub mod generate;
pub mod logs;
pub mod shrink;
pub mod subject;
pub mod sweep;
mod traffic;
