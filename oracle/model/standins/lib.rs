//! Root of the crate that build.sh makes of the Rust's four sources, of the stand-ins beside this file, of oracle/shim/fm.rs and of
//! oracle/linsolve/column.rs.
mod column;
pub mod error;
pub mod fm;
pub mod met;
mod linsolve;
mod model;
mod params;
mod results;
pub mod rule;
mod solver;
mod spec;

pub use error::RegimeError;
pub use model::MarkovSwitchingAr;
pub use params::MsarParams;
pub use results::FitResult;
pub use spec::MsarSpec;
