//! Every public call, once, under its C name (include/rota.h).

mod before_count;
pub mod counting;
pub mod file_plans;
pub mod files;
pub mod lister;
pub mod numbers;
pub mod plans;
pub mod pricing;
pub mod sheets;
pub mod untallied;
pub mod usable;
