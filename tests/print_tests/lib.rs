//! Tests of the printer of the notation.

mod printing;
