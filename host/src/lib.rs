//! The Rust code around the proved library. `library` calls it through its C functions. `plain` is an independent implementation
//! of the format; the tests compare the two.

pub mod answer;
pub mod library;
pub mod plain;
pub mod reply;
pub mod row;
pub mod summary;
pub mod tables;
pub mod word_map;
