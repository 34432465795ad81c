//! The source: its policy engine and the traits of its device policy manager, both original.

pub mod device_policy_manager;
pub mod policy_engine;
