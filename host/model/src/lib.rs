//! A model of the EMC2305 five-fan controller, of its parts with one, two and three fans, of an output of the EMC2300, and of
//! their event logs, by the rules of documents 01 and 02.

#![forbid(unsafe_code)]

pub mod chip;
pub mod emc2300;
pub mod listing;
pub mod log;
pub mod replay;
pub mod speeds;
