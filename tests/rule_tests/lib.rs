//! Tests of checked libraries and of operations on a view. The expected values are worked out by hand.

mod asked;
mod fixtures;
mod libraries;
mod operations;
mod signals;
mod values;
