//! Stand-in: the sink is no part of the comparison.
