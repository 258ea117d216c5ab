//! Refinement of closed quad meshes, written from `docs/` alone and in a way of its own, so that the proved code
//! can be compared with it: half-edges in the place of off-edges and friends, whole levels in the place of tasks.

pub mod bench;
pub mod corners;
pub mod generate;
pub mod judge;
pub mod mesh;
pub mod random;
pub mod refine;
pub mod refusal;
pub mod text;
pub mod values;

pub use bench::{Bench, Declined, Slip, View};
pub use mesh::{Counts, Mesh, Tables};
pub use refusal::{Cause, Refusal};
