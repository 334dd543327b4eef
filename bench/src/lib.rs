//! What the benchmark is made of: the fast program that the library is compared with, the stations, and the figures. None of it needs the library.

pub mod answers;
pub mod fast;
pub mod fast_routes;
mod fast_settings;
pub mod figures;
pub mod report;
pub mod route_files;
pub mod stations;
