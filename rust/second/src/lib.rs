//! The independent second program: the Xinghe calendar walked month after
//! month from the origin by the treatise's own additions.
//!
//! Nothing here divides to find where something stands; that is the way of the
//! program this one is compared with. Days and degrees are added and taken off
//! with their remainders ([`spans`], [`counts`]), the days of every month are gone
//! through for a middle term, an eclipse's size is counted along the degree marks, and a
//! correction is made up of doublings. The planets are walked from conjunction to
//! conjunction; their stages are read from the printed text ([`stage_text`]), and
//! the days of the sixty are counted on one by one ([`sixty`]). A volume's totals
//! are counted mark by mark, and its blocks are read field by field ([`blocks`]); the
//! years of a reign are found by counting on through the volume ([`reigns`]), and the
//! first year of a scratched volume by counting down from every sound block
//! ([`mending`]). [`Walker`] yields the round a year at a time, [`Checkpoints`] finds a
//! single year, month or day quickly by walking on from a kept state. Two further
//! calendars are walked likewise, each by its own numbers ([`calendars`]).

pub mod anomaly;
pub mod ask;
pub mod blocks;
pub mod calendars;
pub mod cases;
pub mod checkpoints;
pub mod counts;
pub mod cuts;
pub mod digest;
pub mod fields;
pub mod instants;
pub mod mending;
pub mod mending_cases;
mod month_counts;
pub mod name_cases;
pub mod nodes;
pub mod numbers;
pub mod numerals;
pub mod planet_cases;
pub mod planets;
pub mod printer;
pub mod rate_cases;
pub mod rate_survey;
pub mod reign_cases;
pub mod reigns;
pub mod scratched;
pub mod sixty;
pub mod spans;
pub mod stage_text;
pub mod stages;
pub mod survey;
pub mod volume_cases;
pub mod volume_programs;
pub mod volumes;
pub mod walker;

pub use checkpoints::Checkpoints;
pub use walker::{Month, Row, Walker, Year};
