//! An independent reference for zero-skew clock trees, written from the
//! specification alone so that another implementation can be compared with it.
//!
//! Nothing here is shared with that other implementation. Where speed and
//! plainness pull apart, plainness wins, except in the joining by least
//! diameter and in the exact search.
//!
//! With the feature `proved` the other implementation is linked through its C
//! interface and compared with the reference; with the feature `bench` it is
//! timed too, against the reference and against peers in C.
#![deny(unsafe_code)]
#![warn(missing_docs)]

#[cfg(feature = "bench")]
pub mod bench;
#[cfg(feature = "proved")]
pub mod compare;
pub mod embed;
pub mod files;
mod form;
pub mod generate;
pub mod joins;
pub mod least;
pub mod lines;
#[cfg(feature = "bench")]
mod peers;
pub mod plane;
#[cfg(feature = "proved")]
pub mod proved;
pub mod refusal;
pub mod search;
pub mod segment;
pub mod text;
