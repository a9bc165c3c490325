//! Stands in for a file that is not at hand. Nothing of it is named.
