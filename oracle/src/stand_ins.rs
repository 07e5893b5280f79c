//! Stand-ins for the crates that the original module leans on: only what it uses.

pub mod catcard_app;
pub mod catcard_ui;
pub mod device;
pub mod heapless;
