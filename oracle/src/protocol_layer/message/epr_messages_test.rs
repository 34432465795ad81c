//! Stand-in: the crate's own tests of its parser are no part of the comparison.
