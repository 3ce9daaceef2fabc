//! The setup of the coarse levels of a curl-curl lattice, a proved library, called from Rust. See the repository's README and docs/TUTORIAL.md.
//!
//! ```no_run
//! use yonaduvi::{Axis, Lattice, Number, Store};
//!
//! let lattice = Lattice { axes: [Axis::Wall, Axis::UNIT, Axis::UNIT], ..Lattice::uniform([4, 1, 1]) };
//! let mut store = Store::setup(lattice)?;
//! for (column, value) in store.operator(1, 0) {
//!     println!("{column} {value:?}");
//! }
//! store.change(0, Number::real(12.1))?;
//! # Ok::<(), yonaduvi::Error>(())
//! ```
//!
//! The library works on its caller's stack: a setup takes up to 0.7 MB, a change up to 2.2 MB (measured).
//! Give a thread that makes changes [`STACK`] bytes.

#![deny(unsafe_code)]

mod error;
mod lattice;
#[allow(unsafe_code)]
mod raw;
mod store;

pub use error::{Error, Input, Lent, Where};
pub use lattice::{Axis, Choice, Lattice};
pub use store::{read, Lists, Row, Rows, Store};

/// A stack with room for every call.
pub const STACK: usize = 4 << 20;

/// A complex number.
#[derive(Clone, Copy, Debug, Default, PartialEq)]
#[repr(C)]
pub struct Number {
    pub re: f64,
    pub im: f64,
}

impl Number {
    pub const ZERO: Number = Number::real(0.0);
    pub const ONE: Number = Number::real(1.0);

    pub const fn new(re: f64, im: f64) -> Number {
        Number { re, im }
    }

    pub const fn real(re: f64) -> Number {
        Number { re, im: 0.0 }
    }
}
