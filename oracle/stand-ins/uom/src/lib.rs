//! Stand-in for `uom`: current, voltage and power as whole milli-units in 32 bits, with the two macros that the crate calls.

/// A unit of measure, given by its size in milli-units.
pub trait Unit {
    /// How many milli-units make one of this unit.
    const MILLI: u32;
}

/// The units and quantities.
pub mod si {
    /// Quantities over 32-bit numbers.
    pub mod u32 {
        use core::ops::Div;

        use crate::Unit;

        macro_rules! quantity {
            ($name:ident) => {
                #[doc = concat!(stringify!($name), " in milli-units.")]
                #[derive(Debug, Clone, Copy, PartialEq, PartialOrd)]
                pub struct $name(::core::primitive::u32);

                impl $name {
                    /// So many of a unit.
                    pub fn new<U: Unit>(number: ::core::primitive::u32) -> Self {
                        Self(number * U::MILLI)
                    }

                    /// The whole number of a unit.
                    pub fn get<U: Unit>(&self) -> ::core::primitive::u32 {
                        self.0 / U::MILLI
                    }
                }
            };
        }

        quantity!(ElectricCurrent);
        quantity!(ElectricPotential);
        quantity!(Power);

        impl Div<ElectricPotential> for Power {
            type Output = ElectricCurrent;

            fn div(self, voltage: ElectricPotential) -> ElectricCurrent {
                ElectricCurrent(self.0 * 1000 / voltage.0)
            }
        }
    }

    macro_rules! units {
        ($quantity:ident: $($name:ident = $milli:literal),+) => {
            #[doc = concat!("Units of ", stringify!($quantity), ".")]
            #[allow(non_camel_case_types)]
            pub mod $quantity {
                $(
                    #[doc = concat!("The ", stringify!($name), ".")]
                    pub enum $name {}

                    impl crate::Unit for $name {
                        const MILLI: ::core::primitive::u32 = $milli;
                    }
                )+
            }
        };
    }

    units!(electric_current: centiampere = 10);
    units!(electric_potential: decivolt = 100, volt = 1000);
    units!(power: watt = 1000);
}

/// Name the quantities of the one system there is.
#[macro_export]
macro_rules! ISQ {
    ($system:path, $number:ty, ($($base:ident),+)) => {
        pub use $crate::si::u32::{ElectricCurrent, ElectricPotential, Power};
    };
}

/// Add a unit of so many base units.
#[macro_export]
macro_rules! unit {
    (system: $system:path; quantity: $quantity:path; @$name:ident: $size:literal; $($text:literal),+;) => {
        #[allow(missing_docs, non_camel_case_types)]
        pub enum $name {}

        impl $crate::Unit for $name {
            // Half a milli-unit more, so that the decimal fraction cannot be cut off below its value.
            const MILLI: u32 = ($size * 1000.0 + 0.5) as u32;
        }
    };
}
