//! Tests of the engine: statements, signals, groups with their workers, top-level transactions and units.

mod firing;
mod fixtures;
mod fourth;
mod fronts;
mod groups;
mod policy;
mod replays;
mod seen;
mod tops;
mod units;
mod waves;
