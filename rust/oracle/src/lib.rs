//! The PeC board over the original timing.rs and irqc.rs: the reference that a rewrite is compared with.
//!
//! "Document 01" in this crate is the definition of the board, 'The PeC board and its deadline'.

// irqc.rs writes `tracing::info!`; the name leads to this crate, where the macro below stands in.
extern crate self as tracing;

/// Stand-in for `tracing::info!`: takes the arguments and writes nothing.
#[macro_export]
macro_rules! info {
    (target: $target:expr, $($argument:tt)+) => {{
        let _ = ($target, format_args!($($argument)+));
    }};
}

pub mod board;
pub mod bus;
pub mod compare;
pub mod controller;
pub mod deadline;
pub mod dispatcher;
pub mod fields;
pub mod generate;
mod host_time;
pub mod image;
pub mod kinds;
pub mod list;
pub mod matches;
pub mod measure;
pub mod preview;
#[cfg(feature = "proved")]
pub mod proved;
pub mod record;
pub mod writes;

/// Stand-in for the module path that irqc.rs imports from.
mod devices {
    pub(crate) mod pec {
        // The name of the original's file.
        #[allow(clippy::module_inception)]
        pub(crate) mod pec {
            pub(crate) fn pec_trace_enabled() -> bool {
                false
            }
        }
    }
}

/// irqc.rs, unchanged; skipped by rustfmt so that it stays so.
#[allow(dead_code)]
#[path = "../original/irqc.rs"]
#[rustfmt::skip]
pub mod irqc;

/// timing.rs, built for each rate. The three builds have one text, and one text is the child of each.
#[allow(dead_code, unused_imports, clippy::duplicate_mod, clippy::manual_range_contains)]
pub mod timing;

pub use timing::registers;
