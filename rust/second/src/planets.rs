//! The five planets' conjunctions with the sun, walked from the origin.

use crate::counts::Count;
use crate::numbers::D;
use crate::spans::{borrowed, carried};

/// Days with a remainder over D. The places stand in the order in which they
/// are compared.
#[derive(Clone, Copy, Debug, PartialEq, Eq, PartialOrd, Ord)]
pub struct Days {
    pub whole: u64,
    pub remainder: u64,
}

impl Days {
    pub const ZERO: Self = Self::new(0, 0);

    pub const fn new(whole: u64, remainder: u64) -> Self {
        Self { whole, remainder }
    }

    fn plus(self, other: Self) -> Self {
        let (day, remainder) = carried(self.remainder + other.remainder, D);
        Self::new(self.whole + other.whole + day, remainder)
    }

    /// Less others that are no more.
    fn minus(self, other: Self) -> Self {
        let (day, remainder) = borrowed(self.remainder, other.remainder, D);
        Self::new(self.whole - (other.whole + day), remainder)
    }
}

/// Whether the treatise speaks of the morning or the evening; the discriminant
/// is the number that is written. Conjunctions of the outer three are neither.
#[derive(Clone, Copy, Debug, Default, PartialEq, Eq)]
pub enum Twilight {
    #[default]
    Neither = 0,
    Morning = 1,
    Evening = 2,
}

impl Twilight {
    fn turned(self) -> Self {
        match self {
            Self::Neither => Self::Neither,
            Self::Morning => Self::Evening,
            Self::Evening => Self::Morning,
        }
    }
}

/// A planet, by the way from one conjunction to the next.
#[derive(Clone, Copy, Debug, PartialEq, Eq)]
pub struct Planet {
    /// The number of the rules paper, in parts over D.
    pub number: u64,
    step: Days,
    /// The conjunction at the origin.
    first: Twilight,
}

impl Planet {
    pub const JUPITER: Self = Self::outer(6_723_888, Days::new(398, 13_608));
    pub const MARS: Self = Self::outer(13_149_083, Days::new(779, 15_143));
    pub const SATURN: Self = Self::outer(6_374_061, Days::new(378, 981));
    pub const VENUS: Self = Self::inner(9_843_882, Days::new(291, 15_681));
    pub const MERCURY: Self = Self::inner(1_953_716, Days::new(57, 15_838));
    /// Numbered from 1 in this order.
    pub const ALL: [Self; 5] = [
        Self::JUPITER,
        Self::MARS,
        Self::SATURN,
        Self::VENUS,
        Self::MERCURY,
    ];

    /// Checked while compiling: the step comes to the number.
    const fn outer(number: u64, step: Days) -> Self {
        assert!(step.whole * D + step.remainder == number);
        Self {
            number,
            step,
            first: Twilight::Neither,
        }
    }

    /// Checked while compiling: an evening and a morning step come to the number.
    const fn inner(number: u64, step: Days) -> Self {
        assert!(2 * (step.whole * D + step.remainder) == number);
        Self {
            number,
            step,
            first: Twilight::Evening,
        }
    }
}

/// A conjunction, counted from a solstice and from the origin.
#[derive(Clone, Copy, Debug, PartialEq, Eq)]
pub struct Conjunction {
    pub from_solstice: Days,
    pub from_origin: Days,
    pub twilight: Twilight,
}

/// A year's conjunction of a planet and the one after it, both counted from
/// the year's solstice.
#[derive(Clone, Copy, Debug, PartialEq, Eq)]
pub struct Conjunctions {
    pub first: Conjunction,
    pub second: Conjunction,
}

/// A planet on its walk, standing at a conjunction.
#[derive(Clone, Copy, Debug)]
pub struct PlanetWalk {
    planet: Planet,
    from_origin: Days,
    twilight: Twilight,
}

impl PlanetWalk {
    /// Every planet stands at a conjunction at the origin.
    pub fn at_origin(planet: Planet) -> Self {
        Self {
            planet,
            from_origin: Days::ZERO,
            twilight: planet.first,
        }
    }

    fn next(self) -> Self {
        Self {
            planet: self.planet,
            from_origin: self.from_origin.plus(self.planet.step),
            twilight: self.twilight.turned(),
        }
    }

    /// Walks on to the conjunction of the year that the solstice begins.
    pub fn walk_to(&mut self, solstice: Count) -> Conjunctions {
        let solstice = Days::new(solstice.whole, solstice.remainder);
        while !self.follows(solstice) {
            *self = self.next();
        }
        Conjunctions {
            first: self.counted_from(solstice),
            second: self.next().counted_from(solstice),
        }
    }

    /// A year's conjunction comes after its solstice; a morning one may fall on
    /// it.
    fn follows(&self, solstice: Days) -> bool {
        match self.twilight {
            Twilight::Morning => self.from_origin >= solstice,
            Twilight::Neither | Twilight::Evening => self.from_origin > solstice,
        }
    }

    fn counted_from(self, solstice: Days) -> Conjunction {
        Conjunction {
            from_solstice: self.from_origin.minus(solstice),
            from_origin: self.from_origin,
            twilight: self.twilight,
        }
    }
}
