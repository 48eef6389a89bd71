//! Tests of the program: its command line, and devices that move little at a time or fail.

mod devices;
mod program;
mod running;
