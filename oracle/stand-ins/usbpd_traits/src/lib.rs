//! Stand-in for `usbpd_traits`: the policy engine only names the driver, it never calls it.

/// A driver of the PHY.
pub trait Driver {}
