//! Stands in for a file that is not at hand.

/// A map.
#[derive(Clone, Debug)]
pub struct Map;
