//! Inputs for the comparisons of Kenupatun with the crate `textwrap`.
//!
//! - [`Rng`]: numbers from a seed, the same on every machine.
//! - [`text`]: texts that reach the corners of escapes, widths and UTF-8.
//! - [`words`]: texts that reach the corners of words, and widths to break them at.
//! - [`layouts`]: fragments, line widths and penalties that reach the corners of layouts.
//! - [`damage`]: texts that are not UTF-8, or no longer what they were.
//! - [`every_string`]: all short strings over an alphabet.
//! - [`run`]: runs a check on many cases and, where it fails, shrinks the case ([`shrink`]).
//!
//! A later comparison adds a function here that makes its cases out of an [`Rng`] (say,
//! three lists of widths) and, where they are of a new type, how they shrink.

#![warn(missing_docs)]

pub mod damage;
pub mod layouts;
pub mod shrink;
pub mod text;
pub mod words;

mod exhaustive;
mod rng;
mod runner;

pub use exhaustive::every_string;
pub use rng::Rng;
pub use runner::{cases, run, say_cases, seed, MORE_CASES};
pub use shrink::Shrink;
