//! The one item that the module takes from the published mesh.rs.

/// A point in space: x, y, z.
pub type Node = [f64; 3];
