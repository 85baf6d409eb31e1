//! The moon's distance since the last node, its side, and eclipses.

use crate::spans::Span;

/// Where a new moon stands to the road.
#[derive(Clone, Copy, Debug, PartialEq, Eq)]
pub enum Side {
    AtNode,
    Outside,
    Inside,
}

/// An era head of the treatise's table.
struct EraHead {
    since_node: Span,
    outside: bool,
}

impl EraHead {
    const fn new(degrees: u64, remainder: u64, outside: bool) -> Self {
        Self {
            since_node: Span::new(degrees, remainder, 0),
            outside,
        }
    }
}

/// The first head stands at the node and is read as outside.
const ERA_HEADS: [EraHead; 6] = [
    EraHead::new(0, 0, true),
    EraHead::new(127, 39_339, true),
    EraHead::new(81, 11_561, false),
    EraHead::new(34, 192_313, false),
    EraHead::new(162, 23_122, true),
    EraHead::new(115, 203_874, true),
];

/// The new moons between the nodes, walked from month to month.
#[derive(Clone, Copy, Debug)]
pub struct NodeWalk {
    since_node: Span,
    outside: bool,
}

impl NodeWalk {
    pub const ORIGIN: Self = Self {
        since_node: Span::ZERO,
        outside: true,
    };

    pub fn next(self) -> Self {
        let (passed, since_node) = moved(self.since_node, Span::MONTH);
        Self {
            since_node,
            outside: self.outside != passed,
        }
    }

    /// At the head of an era (from 0) the side starts from the table; the
    /// distance walked so far must be the printed one.
    pub fn at_era_head(self, era: usize) -> Self {
        let head = &ERA_HEADS[era];
        assert_eq!(self.since_node, head.since_node);
        Self {
            outside: head.outside,
            ..self
        }
    }

    pub fn new_moon(self) -> NewMoonNode {
        NewMoonNode {
            distance: self.since_node,
            side: self.side(),
            eclipse: Eclipse::at(self.since_node),
        }
    }

    /// Half a month on from the new moon.
    pub fn full_moon(self) -> FullMoonNode {
        let (_, since_node) = moved(self.since_node, Span::HALF_MONTH);
        FullMoonNode {
            distance: since_node,
            eclipse: Eclipse::at(since_node),
        }
    }

    fn side(self) -> Side {
        match (self.since_node, self.outside) {
            (Span::ZERO, _) => Side::AtNode,
            (_, true) => Side::Outside,
            (_, false) => Side::Inside,
        }
    }
}

/// Whether the next node is passed on the way, and the distance since the last
/// one then. A month is too short to pass two.
fn moved(since_node: Span, way: Span) -> (bool, Span) {
    let sum = since_node.plus(way);
    if sum >= Span::NODE_HALF_ROUND {
        (true, sum.minus(Span::NODE_HALF_ROUND))
    } else {
        (false, sum)
    }
}

#[derive(Clone, Copy, Debug, PartialEq, Eq)]
pub struct NewMoonNode {
    /// Since the last node.
    pub distance: Span,
    pub side: Side,
    pub eclipse: Eclipse,
}

#[derive(Clone, Copy, Debug, PartialEq, Eq)]
pub struct FullMoonNode {
    /// Since the last node.
    pub distance: Span,
    pub eclipse: Eclipse,
}

/// The farthest from the node at which an eclipse is marked: half a month's way.
const ECLIPSE_LIMIT: Span = Span::HALF_MONTH;
/// The size is the count of the degree marks beyond the distance, this the last.
const OUTERMOST_MARK: Span = Span::new(15, 0, 0);
const DEGREE: Span = Span::new(1, 0, 0);

/// An eclipse; distance and size are 0 where none is marked.
#[derive(Clone, Copy, Debug, PartialEq, Eq)]
pub struct Eclipse {
    pub marked: bool,
    /// From the nearer node.
    pub distance: Span,
    pub size: u64,
}

impl Eclipse {
    const NONE: Self = Self {
        marked: false,
        distance: Span::ZERO,
        size: 0,
    };

    /// The moon stands between the last node and the next; the nearer counts.
    /// Halves are kept, and so is the full moon that is exactly on the limit.
    fn at(since_node: Span) -> Self {
        let to_next = Span::NODE_HALF_ROUND.minus(since_node);
        let distance = since_node.min(to_next);
        if distance > ECLIPSE_LIMIT {
            return Self::NONE;
        }
        Self {
            marked: true,
            distance,
            size: size(distance),
        }
    }
}

/// Counts the degree marks from the outermost inwards that lie beyond.
fn size(distance: Span) -> u64 {
    let mut mark = OUTERMOST_MARK;
    let mut marks = 0;
    while distance < mark {
        marks += 1;
        mark = mark.minus(DEGREE);
    }
    marks
}
