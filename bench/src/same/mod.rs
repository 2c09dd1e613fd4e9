//! The library's algorithms in Rust: a module for each Rattle source, with the functions that the calls use and the usual tests of
//! bounds.

mod acceptance;
mod answers;
mod augment;
mod cell;
mod components;
mod file_blocks;
mod file_layout;
mod file_reading;
mod file_writing;
mod least;
mod maximum;
mod min_cost;
mod model;
mod next;
mod permanent;
mod plan;
pub mod rank;
pub mod rota;
mod ryser;
mod sheet;
mod tariff;
mod words;
