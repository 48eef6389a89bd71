//! Tests of the notation: texts that are read, and places of faults.

mod faults;
mod paths;
mod reading;
