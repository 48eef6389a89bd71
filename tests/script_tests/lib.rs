//! Tests of the input and output of a run: scripts, devices, reports.

mod decoding;
mod devices;
mod endings;
mod fixtures;
mod requests;
mod texts;
