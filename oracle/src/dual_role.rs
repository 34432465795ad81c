//! Stand-in: the dual-role port is no part of the comparison.
