//! An independent model of documents 01 and 02 in plain Rust, and what compares the proved program with it.

/// Prints a line. A reader that has gone away wants no more, and the exit status still tells.
#[macro_export]
macro_rules! say {
    ($($text:tt)*) => {{
        use std::io::Write;
        let _ = writeln!(std::io::stdout(), $($text)*);
    }};
}

/// An enum and, as `ALL`, the list of its values, which are so written once.
#[macro_export]
macro_rules! listed {
    ($(#[$about:meta])* $seen:vis enum $name:ident { $($(#[$of:meta])* $value:ident),* $(,)? }) => {
        $(#[$about])*
        $seen enum $name {
            $($(#[$of])* $value),*
        }

        impl $name {
            /// All of them, in this order.
            pub const ALL: [$name; [$($name::$value),*].len()] = [$($name::$value),*];
        }
    };
}

pub mod batch;
pub mod boards;
pub mod bounds;
pub mod compare;
pub mod coverage;
pub mod digits;
pub mod explained;
#[cfg(feature = "exports")]
pub mod exports;
pub mod generate;
pub mod hex;
pub mod listing;
pub mod look;
pub mod looked;
pub mod model;
pub mod numbered;
pub mod patterns;
pub mod picture;
pub mod program;
pub mod random;
pub mod report;
pub mod sheet;
pub mod stack;
pub mod tally;
pub mod trace;
pub mod tuned;
pub mod typed;
pub mod waves;
pub mod workload;
