//! Runs the program hc as its users do, and compares what it answers with values written by hand from the documents.

mod answers;
mod arcs;
mod boundaries;
mod build;
mod ceilings;
mod check;
mod faults;
mod files;
mod join;
mod networks;
mod plain;
mod questions;
mod running;
mod same;
mod texts;
mod transcribe;
mod usage;
mod words;
