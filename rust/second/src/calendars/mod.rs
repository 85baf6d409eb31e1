//! Two further calendars, the Zhengguang and the Linde, walked as the Xinghe is.
//!
//! Both are one walk over a calendar's own numbers ([`numbers`]). The walk of the
//! Xinghe stays apart: eras, phases, corrections and planets hang on it, and its months
//! and nodes are counted in spans over its own divisors. Cuts are one ([`crate::cuts`]).

pub mod ask;
pub mod cases;
pub mod checkpoints;
pub mod fields;
pub mod nodes;
pub mod numbers;
mod questions;
pub mod survey;
pub mod walker;

pub use checkpoints::{Checkpoints, LINDE, ZHENGGUANG};
pub use walker::{Month, Row, Walker, Year};
