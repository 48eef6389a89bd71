//! Tests of stores, views, boards and attempts: what no clause says of them, and their public functions on the happy
//! path.

mod attempts;
mod boards;
mod counts;
mod fixtures;
mod greatest;
mod lists;
mod parts;
mod read_parts;
mod stores;
mod views;
