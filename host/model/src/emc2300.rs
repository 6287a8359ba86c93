//! The EMC2300, by CR 6 and by the page that condenses document 000 for it: one output, and the zones that it goes by.
//! Quoted words are the page's.

pub mod output;
pub mod zones;
