//! Tries wrong programs: each is an edit of a crate, which the prover must refuse, and for a fact that fails.

pub mod copies;
pub mod edit;
pub mod list;
pub mod log;
pub mod rounds;
pub mod source;
pub mod trial;
