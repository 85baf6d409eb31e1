//! What the cases ask of each calendar.

/// The questions to a calendar, in the order in which they are asked.
pub struct Questions {
    /// Years of which everything is asked, places that they don't have included.
    pub years: [u64; 5],
    pub heads: &'static [u64],
    pub rows: &'static [(u64, u64)],
    pub nodes: &'static [(u64, u64)],
    pub cuts: &'static [(u64, u64, u64)],
    pub days: &'static [(u64, u64, u64)],
    pub dates: &'static [u64],
    pub carries: &'static [(u64, i64)],
    pub nexts: [u64; 2],
    pub backs: [u64; 2],
    /// The month whose row is forged, number by number.
    pub forged: u64,
    /// The month from which the walk sets out, and its counts.
    pub walk: (u64, &'static [i64]),
    pub lists: [u64; 3],
}

/// The ends of the round, and the first month of each sixth of it.
pub const ZHENGGUANG: Questions = Questions {
    years: [1, 2, 3, 167_756, 363_600],
    heads: &[0, 363_601, u64::MAX],
    rows: &[(0, 0), (1, 12), (363_601, 99), (1, u64::MAX)],
    nodes: &[
        (0, 0),
        (1, 12),
        (1, 0),
        (60_601, 0),
        (121_201, 0),
        (181_801, 0),
        (242_401, 0),
        (303_001, 0),
    ],
    cuts: &[
        (0, 24, 0),
        (1, 25, 0),
        (1, 24, 24),
        (1, 0, 0),
        (363_601, 0, 0),
        (1, 72, u64::MAX),
    ],
    days: &[
        (1, 0, 0),
        (1, 0, 29),
        (1, 0, 30),
        (1, 12, 0),
        (0, 99, 99),
        (363_600, 12, 30),
        (363_600, 12, 31),
    ],
    dates: &[0, 28, 29, 61_271_432, 132_802_619, 132_802_620, u64::MAX],
    carries: &[
        (0, 5),
        (5, -3),
        (2_074_846, 0),
        (4_497_118, 1),
        (4_497_119, -4_497_119),
        (4_497_119, 1),
        (0, -1),
        (0, i64::MAX),
        (4_497_119, i64::MIN),
    ],
    nexts: [0, 4_497_119],
    backs: [1, 0],
    forged: 2_074_846,
    walk: (5, &[3, -20, i64::MIN, 7, 0, 4_497_104, 1]),
    lists: [3, 363_600, 0],
};

/// The ends of the calendar; its years are written from 0.
pub const LINDE: Questions = Questions {
    years: [0, 1, 2, 269_880, 300_000],
    heads: &[300_001, u64::MAX],
    rows: &[(0, 12), (300_001, 99), (0, u64::MAX)],
    nodes: &[],
    cuts: &[
        (300_001, 24, 0),
        (0, 25, 0),
        (0, 24, 24),
        (0, 0, 0),
        (300_001, 0, 0),
        (0, 72, u64::MAX),
    ],
    days: &[
        (0, 0, 0),
        (0, 0, 29),
        (0, 0, 30),
        (0, 12, 0),
        (300_001, 99, 99),
        (300_000, 11, 29),
        (300_000, 11, 30),
        (300_000, 11, 31),
    ],
    dates: &[0, 28, 29, 98_572_246, 109_573_781, 109_573_782, u64::MAX],
    carries: &[
        (0, 5),
        (5, -3),
        (3_337_970, 0),
        (3_710_515, 1),
        (3_710_516, -3_710_516),
        (3_710_516, 1),
        (0, -1),
        (0, i64::MAX),
        (3_710_516, i64::MIN),
    ],
    nexts: [0, 3_710_516],
    backs: [1, 0],
    forged: 3_337_970,
    walk: (5, &[3, -20, i64::MIN, 7, 0, 3_710_501, 1]),
    lists: [2, 300_000, 300_001],
};
