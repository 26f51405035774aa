//! The cases: each is made from its family, a seed and an index, and from
//! nothing else, so that any of them can be made again.

pub mod aimed;
pub mod chain_examples;
pub mod chains;
pub mod exact;
pub mod exact_examples;
pub mod exact_joins;
pub mod exact_trees;
pub mod files;
pub mod join_examples;
pub mod least_norm;
pub mod lengths;
pub mod marked;
pub mod problem;
pub mod pulls;
pub mod random;
pub mod rays;
pub mod reports;
pub mod roots;
pub mod solve;
pub mod stop_examples;
pub mod stops;
pub mod sums;
pub mod sweeps;
pub mod torn;
pub mod torn_examples;
pub mod triangles;
