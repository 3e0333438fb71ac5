//! PHastR's own sweep, compiled unchanged, and what is needed to compare ours with it.

pub mod case;
pub mod cases;
pub mod chunked;
pub mod domain;
pub mod geometry;
pub mod house;
pub mod naive;
pub mod named;
mod phastr;
pub mod random;
pub mod shapes;
pub mod sheets;
pub mod stored;
pub mod text;

pub use case::{Answer, Case, Figures, Outcome, Settings, outcome};
pub use phastr::*;
