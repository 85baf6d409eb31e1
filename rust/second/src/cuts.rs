//! Cuts of the year in equal parts.

use crate::counts::{Board, Count};

/// A year: its parts, of which a day has as many as the degree divisor says.
#[derive(Clone, Copy)]
pub struct SunYear {
    pub degree_divisor: u64,
    pub parts: u64,
}

/// A cut, with the addition from point to point.
#[derive(Clone, Copy, Debug)]
pub struct Cut {
    /// Over the degree divisor, and a rest over the number of points.
    board: Board,
    step: Count,
}

impl Cut {
    /// Checked while compiling: the steps come to a whole year.
    pub const fn new(year: SunYear, points: u64, step: Count) -> Self {
        let board = Board {
            parts: year.degree_divisor,
            rests: points,
        };
        Self {
            board,
            step: board.checked(step, year.parts),
        }
    }

    pub fn points(self) -> u64 {
        self.board.rests
    }

    pub fn next(self, point: Count) -> Count {
        self.board.plus(point, self.step)
    }

    /// Its points in a year, walked from the solstice.
    pub fn walk(self, solstice: Count) -> impl Iterator<Item = Count> {
        std::iter::successors(Some(solstice), move |point| Some(self.next(*point)))
            .take(self.points() as usize)
    }
}

/// Point `index` of a year's cut in `points`, where the cut is one of these and has it.
pub fn point(cuts: [Cut; 3], solstice: Count, points: u64, index: u64) -> Option<Count> {
    let cut = cuts.into_iter().find(|cut| cut.points() == points)?;
    cut.walk(solstice).nth(index as usize)
}
