//! The Zhengguang and the Linde calendar, compared with the second program's walk of
//! each. A test is written once, for any calendar of the library.

mod all;
mod boundary;
mod library;
mod questions;
mod rows;
mod some;
mod walks;
