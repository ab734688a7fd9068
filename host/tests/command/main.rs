//! Tests of the command `phd` as a user runs it: what it prints, what it writes, and its exit status.

mod builder;
mod classes;
mod classes_cut;
mod classes_data;
mod convert;
mod harness;
mod info;
mod json;
mod large;
mod output;
mod rows;
mod samples;
mod terminal;
mod usage;
