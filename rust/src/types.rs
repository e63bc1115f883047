//! The types of cells.

use crate::Refusal;

/// Ends a face in the nodes of a [`SpaceType::Phed`].
pub const FACE_END: u64 = u64::MAX;

/// The most entries of a [`SpaceType::Phed`] and nodes of a [`PlaneType::Pgon`].
pub const MOST_ENTRIES: usize = 256;

/// A type of cell in space, with mefikit's number. The first nodes are the corners.
#[derive(Clone, Copy, Debug, PartialEq, Eq, Hash)]
pub enum SpaceType {
    /// A tetrahedron.
    Tet4 = 12,
    /// A tetrahedron with 6 mid-side nodes.
    Tet10 = 13,
    /// A brick.
    Hex8 = 14,
    /// A brick with 13 nodes beside its corners.
    Hex21 = 15,
    /// A wedge.
    Wedge6 = 16,
    /// A wedge with 9 mid-side nodes.
    Wedge15 = 17,
    /// A polyhedron: the nodes of each face, with [`FACE_END`] between faces; at most 256 entries. A face of
    /// less than three nodes is dropped, and its nodes are never read.
    Phed = 18,
}

/// A type of cell in the plane, with mefikit's number. The first nodes are the corners.
#[derive(Clone, Copy, Debug, PartialEq, Eq, Hash)]
pub enum PlaneType {
    /// A triangle.
    Tri3 = 5,
    /// A triangle with 3 mid-side nodes.
    Tri6 = 6,
    /// A triangle with 4 nodes beside its corners.
    Tri7 = 7,
    /// A quadrilateral.
    Quad4 = 8,
    /// A quadrilateral with 4 mid-side nodes.
    Quad8 = 9,
    /// A quadrilateral with 5 nodes beside its corners.
    Quad9 = 10,
    /// A polygon of at most 256 nodes, all of them corners.
    Pgon = 11,
}

impl SpaceType {
    /// All of them, by number.
    pub const ALL: [SpaceType; 7] = [
        SpaceType::Tet4,
        SpaceType::Tet10,
        SpaceType::Hex8,
        SpaceType::Hex21,
        SpaceType::Wedge6,
        SpaceType::Wedge15,
        SpaceType::Phed,
    ];

    /// mefikit's number.
    pub fn number(self) -> u8 {
        self as u8
    }

    /// The nodes of a cell, or none for a polyhedron, which has any number up to [`MOST_ENTRIES`].
    pub fn nodes(self) -> Option<usize> {
        match self {
            SpaceType::Tet4 => Some(4),
            SpaceType::Tet10 => Some(10),
            SpaceType::Hex8 => Some(8),
            SpaceType::Hex21 => Some(21),
            SpaceType::Wedge6 => Some(6),
            SpaceType::Wedge15 => Some(15),
            SpaceType::Phed => None,
        }
    }

    /// The most corners that the kept faces of a cell with this many nodes have together. The buffers of
    /// [`lent`](crate::lent) are measured by it.
    pub fn face_corners(self, nodes: usize) -> usize {
        match self {
            SpaceType::Tet4 | SpaceType::Tet10 => 12,
            SpaceType::Wedge6 | SpaceType::Wedge15 => 18,
            SpaceType::Hex8 | SpaceType::Hex21 => 24,
            SpaceType::Phed => nodes.min(MOST_ENTRIES),
        }
    }
}

impl PlaneType {
    /// All of them, by number.
    pub const ALL: [PlaneType; 7] = [
        PlaneType::Tri3,
        PlaneType::Tri6,
        PlaneType::Tri7,
        PlaneType::Quad4,
        PlaneType::Quad8,
        PlaneType::Quad9,
        PlaneType::Pgon,
    ];

    /// mefikit's number.
    pub fn number(self) -> u8 {
        self as u8
    }

    /// The nodes of a cell, or none for a polygon, which has any number up to [`MOST_ENTRIES`].
    pub fn nodes(self) -> Option<usize> {
        match self {
            PlaneType::Tri3 => Some(3),
            PlaneType::Tri6 => Some(6),
            PlaneType::Tri7 => Some(7),
            PlaneType::Quad4 => Some(4),
            PlaneType::Quad8 => Some(8),
            PlaneType::Quad9 => Some(9),
            PlaneType::Pgon => None,
        }
    }

    /// The corners of a cell with this many nodes.
    pub fn corners(self, nodes: usize) -> usize {
        match self {
            PlaneType::Tri3 | PlaneType::Tri6 | PlaneType::Tri7 => 3,
            PlaneType::Quad4 | PlaneType::Quad8 | PlaneType::Quad9 => 4,
            PlaneType::Pgon => nodes.min(MOST_ENTRIES),
        }
    }
}

impl TryFrom<u8> for SpaceType {
    type Error = Refusal;

    fn try_from(number: u8) -> Result<SpaceType, Refusal> {
        let mut all = SpaceType::ALL.into_iter();
        all.find(|found| found.number() == number)
            .ok_or(Refusal::Type)
    }
}

impl TryFrom<u8> for PlaneType {
    type Error = Refusal;

    fn try_from(number: u8) -> Result<PlaneType, Refusal> {
        let mut all = PlaneType::ALL.into_iter();
        all.find(|found| found.number() == number)
            .ok_or(Refusal::Type)
    }
}
