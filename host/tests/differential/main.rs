//! Differential tests: compares the proved library with the plain implementation, and checks what is proved of it, on random
//! cases. A case that fails is printed with its seed and its bytes; `run` explains how to run it again.

mod boundaries;
mod cases;
mod class_index;
mod class_samples;
mod class_searches;
mod compare;
mod coverage;
mod cuts;
mod damage;
mod encode;
mod entry_cases;
mod good;
mod indexed_texts;
mod limits;
mod many_classes;
mod mutate;
mod names;
mod read_back;
mod rng;
mod run;
mod search;
mod shortest;
mod summaries;
mod summary_cases;
mod summary_tables;
mod tables;
