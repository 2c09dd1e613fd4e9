//! Rotas, refused tables, plans and files to try.

pub mod brittle;
pub mod damaged;
pub mod families;
pub mod given;
pub mod refused;
