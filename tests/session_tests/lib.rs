//! Tests of sessions over a small bank. They test what no contract states: that calls succeed, on which threads, and
//! what happens outside the lock.

mod bank;
mod books;
mod callers;
mod outside;
