//! A client of the object store: sessions with a node, over its Unix socket.
//!
//! A [`Session`] is one connection of a job; its calls block. A [`Pool`] lends sessions to threads. What [`frame`] has is
//! the protocol alone.
//!
//! ```no_run
//! use std::time::Duration;
//! use store_client::{Error, Session};
//!
//! fn main() -> Result<(), Error> {
//!     let store = Session::connect("/tmp/store.0", 1, &[1; 32], Some(Duration::from_secs(5)))?;
//!     let id = store.put(b"Hello", None)?;
//!     let held = store.get(id, None)?;
//!     assert_eq!(&held[..], b"Hello");
//!     Ok(())
//! }
//! ```

#![forbid(unsafe_code)]
#![warn(missing_docs)]

mod deadline;
mod error;
mod finding;
pub mod frame;
mod held;
mod id;
mod parts;
mod pool;
mod putting;
mod refusal;
mod session;
mod stream;

pub use error::Error;
pub use frame::{CopyKind, GrantedItem, Key, Listing, OwnItem, Placed, State, Usage, LARGEST, MOST_BYTES};
pub use held::Held;
pub use id::{parse_key, NoId, ObjectId, Task, ID_BYTES, TASK_BYTES};
pub use pool::{Lease, Pool};
pub use refusal::Refusal;
pub use session::Session;

/// The examples of the page, compiled.
#[cfg(doctest)]
#[doc = include_str!("../README.md")]
pub struct Readme;
