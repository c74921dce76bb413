//! The driver's functions over plain values.

pub mod clear;
pub mod letters;
pub mod lists;
pub mod outcomes;
pub mod pieces;
pub mod transactions;
pub mod words;
