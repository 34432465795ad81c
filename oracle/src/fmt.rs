//! Stand-in for the crate's logging macros: nothing is logged, the arguments are only looked at.
#![macro_use]
#![allow(unused_macros)]

macro_rules! quiet {
    ($text:literal $(, $argument:expr)* $(,)?) => {{
        $( let _ = &$argument; )*
    }};
}

macro_rules! trace { ($($t:tt)*) => { quiet!($($t)*) }; }
macro_rules! warn { ($($t:tt)*) => { quiet!($($t)*) }; }
macro_rules! error { ($($t:tt)*) => { quiet!($($t)*) }; }
