//! The numbers that everything stands on, as the rules paper prints them.

/// Day divisor (ri fa); remainders of new moons and phases are over it.
pub const N: u64 = 208_530;
/// Degree divisor (du fa); remainders of the solstice and the cuts are over it.
pub const D: u64 = 16_860;
/// Parts of a month over N, and of a year over D.
pub const P: u64 = 6_158_017;
/// Node half-round (hui tong).
pub const M: u64 = 36_142_807;
/// Anomaly round (tong zhou).
pub const T: u64 = 5_745_941;
/// Small circuit (xiao zhou).
pub const SMALL_CIRCUIT: u64 = 7_513;

pub const CHAPTER_YEARS: u64 = 562;
pub const CHAPTER_LEAPS: u64 = 207;
pub const ERA_YEARS: u64 = 168_600;
pub const ERAS: u64 = 6;
pub const ROUND_YEARS: u64 = 1_011_600;
pub const ROUND_MONTHS: u64 = 12_511_800;
/// The days are named by sixties; day 0 is jiazi.
pub const SIXTY: u64 = 60;
/// The last day of the round, counted from day 0.
pub const LAST_DAY: u64 = 369_481_019;

/// The small remainder from which the paper gives a month 30 days.
pub const LONG_FROM: u64 = 97_883;
