//! Tests of what is found about a rule base before it runs.

mod fixtures;
mod kinds;
mod links;
mod values;
