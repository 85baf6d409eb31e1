//! The moon's distance since the last node.

use crate::counts::{Board, Count};

/// What a calendar has of the nodes.
#[derive(Clone, Copy, Debug)]
pub struct Nodes {
    pub board: Board,
    /// From node to node.
    pub half_round: Count,
    /// From new moon to new moon, and from new moon to full moon.
    pub month: Count,
    pub half_month: Count,
}

/// The new moons between the nodes, walked from month to month.
#[derive(Clone, Copy, Debug)]
pub struct NodeWalk {
    nodes: Nodes,
    since_node: Count,
}

impl NodeWalk {
    /// The origin is at a node.
    pub fn at_origin(nodes: Nodes) -> Self {
        Self {
            nodes,
            since_node: Count::ZERO,
        }
    }

    pub fn next(self) -> Self {
        Self {
            nodes: self.nodes,
            since_node: self.moved(self.nodes.month),
        }
    }

    pub fn new_moon(self) -> Count {
        self.since_node
    }

    /// Half a month on from the new moon.
    pub fn full_moon(self) -> Count {
        self.moved(self.nodes.half_month)
    }

    /// The distance since the last node after some way. A month is too short to pass
    /// two.
    fn moved(self, way: Count) -> Count {
        let Nodes {
            board, half_round, ..
        } = self.nodes;
        let sum = board.plus(self.since_node, way);
        if sum >= half_round {
            board.minus(sum, half_round)
        } else {
            sum
        }
    }
}
