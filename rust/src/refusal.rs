//! Why there is no answer.

use std::error::Error;
use std::fmt::{self, Display, Formatter};

/// Why there is no answer. Where more than one applies, the least number is told; [`stitch`](crate::stitch)
/// tests 8, then 7.
#[derive(Clone, Copy, Debug, PartialEq, Eq, Hash)]
pub enum Refusal {
    /// 1: the function does not cut cells of this type.
    Type = 1,
    /// 2: not the type's number of nodes, or over 256 for a polyhedron or polygon.
    NodeCount = 2,
    /// 3: the coordinates are not whole rows of three, or of two in the plane.
    PartialRow = 3,
    /// 4: the node number of a corner is no row of the coordinates. Mid-side nodes are never read.
    NoSuchRow = 4,
    /// 5: origin, normal or direction is not of three numbers, or of two in the plane.
    VectorLength = 5,
    /// 6: the norm of a vector is not greater than 0 where it has to be made one of length 1; or a component of a normal
    /// that is to be [scaled](crate#the-scaled-way) is not finite.
    NoDirection = 6,
    /// 7: a buffer is too short. Only the functions of [`lent`](crate::lent) take buffers.
    ShortBuffer = 7,
    /// 8: the numbers to stitch are not four a segment, or are of over 384 segments.
    Segments = 8,
}

/// Who can mend a refusal.
#[derive(Clone, Copy, Debug, PartialEq, Eq, Hash)]
pub enum Mender {
    /// Who describes the cell: its type, nodes and coordinates.
    Cell,
    /// Who places the cut: its origin, normal or direction.
    Cut,
    /// Who lends the buffers.
    Buffers,
    /// Who hands over segments to stitch.
    Segments,
}

const ALL: [Refusal; 8] = [
    Refusal::Type,
    Refusal::NodeCount,
    Refusal::PartialRow,
    Refusal::NoSuchRow,
    Refusal::VectorLength,
    Refusal::NoDirection,
    Refusal::ShortBuffer,
    Refusal::Segments,
];

impl Refusal {
    /// The number that C sees.
    pub fn number(self) -> u32 {
        self as u32
    }

    /// The refusal with this number, or none for 0.
    pub(crate) fn of_number(number: u32) -> Option<Refusal> {
        let refusal = |index: u32| ALL.get(index as usize).copied();
        let known = |index| refusal(index).expect("the functions have no other refusals");
        number.checked_sub(1).map(known)
    }

    /// Who can mend it.
    pub fn mender(self) -> Mender {
        match self {
            Refusal::Type | Refusal::NodeCount | Refusal::PartialRow | Refusal::NoSuchRow => {
                Mender::Cell
            }
            Refusal::VectorLength | Refusal::NoDirection => Mender::Cut,
            Refusal::ShortBuffer => Mender::Buffers,
            Refusal::Segments => Mender::Segments,
        }
    }

    fn words(self) -> &'static str {
        match self {
            Refusal::Type => "cells of this type are not cut by this function",
            Refusal::NodeCount => {
                "the cell has not its type's number of nodes, or over 256 as a polyhedron or polygon"
            }
            Refusal::PartialRow => "the coordinates are not whole rows",
            Refusal::NoSuchRow => "a corner's node number is no row of the coordinates",
            Refusal::VectorLength => {
                "origin, normal or direction has not as many numbers as a row of coordinates"
            }
            Refusal::NoDirection => {
                "the norm of a vector is not greater than 0, or a component of a normal to be scaled is not finite"
            }
            Refusal::ShortBuffer => "a buffer is too short",
            Refusal::Segments => "the segments are not four numbers each, or over 384",
        }
    }
}

impl Display for Mender {
    fn fmt(&self, f: &mut Formatter<'_>) -> fmt::Result {
        f.write_str(match self {
            Mender::Cell => "who describes the cell",
            Mender::Cut => "who places the cut",
            Mender::Buffers => "who lends the buffers",
            Mender::Segments => "who hands over the segments",
        })
    }
}

impl Display for Refusal {
    fn fmt(&self, f: &mut Formatter<'_>) -> fmt::Result {
        let (words, mender) = (self.words(), self.mender());
        write!(f, "{words}; to be mended by {mender}")
    }
}

impl Error for Refusal {}
