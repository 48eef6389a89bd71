//! Tests of values, patterns, detectors, queries and trees. The expected values are worked out by hand.

mod aggregates;
mod detectors;
mod ends;
mod expressions;
mod fixtures;
mod parts;
mod patterns;
mod postfix;
mod queries;
mod trees;
