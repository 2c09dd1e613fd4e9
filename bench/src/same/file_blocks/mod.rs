//! The blocks of a rota file: the tests of one block, and the reader that goes from block to block.

pub mod checks;
pub mod reader;
