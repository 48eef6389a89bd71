//! Tests of the rule base that stays up: whole sessions on devices that transfer little at a time, and that fail.

mod files;
mod fixtures;
mod serving;
mod sessions;
mod words;
