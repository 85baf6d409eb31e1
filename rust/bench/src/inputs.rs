//! The benchmark's inputs: the same in every run, all of them answered.

use bench::fast::{self, Division, ROW};

use crate::calendar_inputs::{CalendarInputs, Draw};

/// Enough that no branch predictor learns them by heart.
pub const COUNT: usize = 1 << 16;

pub struct Inputs {
    pub calendar: CalendarInputs<ROW>,
    pub conjunctions: Vec<(u64, u64)>,
    pub planets: Vec<u64>,
    /// Days of the sixty, and how long their list is.
    pub labels: Vec<(u64, usize)>,
    /// The first years of volumes, and the volumes.
    pub first_years: Vec<u64>,
    pub volumes: Vec<Volume>,
    /// The same volumes with some blocks scratched.
    pub scratched: Vec<Volume>,
    /// A volume by its index, and a first and a last year within it.
    pub spans: Vec<(usize, u64, u64)>,
}

/// The years of a volume.
pub const VOLUME_YEARS: u64 = 20;
pub type Volume = [u8; VOLUME_YEARS as usize * fast::BLOCK];
/// Few enough that the processor's cache holds the volumes that are read.
pub const VOLUMES: usize = 1 << 9;
/// How many blocks of a volume are scratched.
const SCRATCHED: u64 = 4;

pub struct Random {
    state: u64,
}

impl Random {
    pub fn new(seed: u64) -> Self {
        Self { state: seed }
    }

    /// splitmix64
    pub fn below(&mut self, limit: u64) -> u64 {
        self.state = self.state.wrapping_add(0x9e37_79b9_7f4a_7c15);
        let mut z = self.state;
        z = (z ^ (z >> 30)).wrapping_mul(0xbf58_476d_1ce4_e5b9);
        z = (z ^ (z >> 27)).wrapping_mul(0x94d0_49bb_1331_11eb);
        (z ^ (z >> 31)) % limit
    }

    fn planet(&mut self) -> u64 {
        1 + self.below(5)
    }

    /// Half of the lists of theirs are a byte short, so that the house's is taken.
    fn label(&mut self) -> (u64, usize) {
        let short = self.below(2) as usize;
        (1 + self.below(fast::SIXTY), fast::LIST - short)
    }

    /// Of a volume that ends within the round.
    fn first_year(&mut self) -> u64 {
        1 + self.below(fast::ROUND_YEARS - VOLUME_YEARS + 1)
    }

    /// Of any of the volumes.
    fn span(&mut self, first_years: &[u64]) -> (usize, u64, u64) {
        let volume = self.below(first_years.len() as u64) as usize;
        let (one, other) = (self.below(VOLUME_YEARS), self.below(VOLUME_YEARS));
        let first = first_years[volume];
        (volume, first + one.min(other), first + one.max(other))
    }

    /// The volume with some of its blocks filled with random bytes, any as often as any
    /// other.
    fn scratched(&mut self, &whole: &Volume) -> Volume {
        let mut volume = whole;
        let mut left = SCRATCHED;
        for (later, block) in volume.rchunks_mut(fast::BLOCK).enumerate().rev() {
            if self.below(later as u64 + 1) < left {
                block.fill_with(|| self.below(256) as u8);
                left -= 1;
            }
        }
        volume
    }
}

fn volume(&first: &u64) -> Volume {
    let (mut volume, mut count) = ([0; _], [0]);
    let number = fast::write_volume(first, first + VOLUME_YEARS - 1, &mut volume, &mut count);
    assert_eq!(number, 0);
    volume
}

pub fn some<T>(count: usize, make: impl FnMut() -> T) -> Vec<T> {
    std::iter::repeat_with(make).take(count).collect()
}

impl Inputs {
    pub fn new() -> Self {
        let mut draw = Draw {
            random: Random::new(1),
            years: 1..=fast::ROUND_YEARS,
            months: fast::ROUND_MONTHS,
            days: fast::ROUND_DAYS,
            month_row: fast::month_row::<Division>,
        };
        let mut volumes_random = Random::new(2);
        let first_years = some(VOLUMES, || volumes_random.first_year());
        let volumes: Vec<Volume> = first_years.iter().map(volume).collect();
        let mut scratches_random = Random::new(3);
        let scratched = volumes
            .iter()
            .map(|whole| scratches_random.scratched(whole));
        Self {
            calendar: draw.inputs(),
            conjunctions: some(COUNT, || (draw.year(), draw.random.planet())),
            planets: some(COUNT, || draw.random.planet()),
            labels: some(COUNT, || draw.random.label()),
            scratched: scratched.collect(),
            volumes,
            spans: some(COUNT, || volumes_random.span(&first_years)),
            first_years,
        }
    }
}
