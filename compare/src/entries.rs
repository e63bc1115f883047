//! The functions of include/cicelybeam.h, called with the inputs and buffers of a case.

use cicelybeam::lent::{cut_by_line, cut_by_plane, cut_plane_cell_by_direction};
use cicelybeam::lent::{cut_plane_cell_by_normal, gather, stitch, Buffers, Written, WrittenLine};
use cicelybeam::{tolerance_in_plane, tolerance_in_space, Refusal};

use crate::proved;

/// Which function, by the number that recorded answers have for it. 8 is the square root.
#[derive(Clone, Copy, Debug, PartialEq, Eq)]
pub enum Entry {
    Plane = 1,
    LineInSpace = 2,
    PlaneCellByNormal = 3,
    PlaneCellByDirection = 4,
    Stitch = 5,
    ToleranceInSpace = 6,
    ToleranceInPlane = 7,
    Gather = 9,
}

impl Entry {
    pub const ALL: [Entry; 8] = [
        Entry::Plane,
        Entry::Gather,
        Entry::LineInSpace,
        Entry::PlaneCellByNormal,
        Entry::PlaneCellByDirection,
        Entry::Stitch,
        Entry::ToleranceInSpace,
        Entry::ToleranceInPlane,
    ];

    /// The numbers that a point or segment of the answer has.
    pub fn numbers_each(self) -> usize {
        match self {
            Entry::LineInSpace => 6,
            Entry::Gather | Entry::PlaneCellByNormal | Entry::PlaneCellByDirection => 4,
            _ => 2,
        }
    }

    /// The coordinates of a row.
    pub fn width(self) -> usize {
        match self {
            Entry::Plane | Entry::Gather | Entry::LineInSpace | Entry::ToleranceInSpace => 3,
            _ => 2,
        }
    }

    /// Whether the entry takes a normal, which can be scaled.
    pub fn takes_normal(self) -> bool {
        matches!(
            self,
            Entry::Plane | Entry::Gather | Entry::PlaneCellByNormal
        )
    }

    /// The type numbers that the entry cuts.
    pub fn types(self) -> std::ops::RangeInclusive<u8> {
        match self {
            Entry::Plane | Entry::Gather | Entry::LineInSpace => 12..=18,
            _ => 5..=11,
        }
    }
}

/// All that a call is given. What the function does not take is empty.
#[derive(Clone, Debug)]
pub struct Case {
    pub entry: Entry,
    pub number: u8,
    pub conn: Vec<u64>,
    pub coords: Vec<f64>,
    pub origin: Vec<f64>,
    /// The normal or the direction.
    pub vector: Vec<f64>,
    pub segments: Vec<f64>,
    /// How a normal is taken: 0 is as it is given, anything else scaled.
    pub scaled: u8,
    /// The way of a plane cut and of stitching: 0 is the usual one, anything else the strict one.
    pub strict: u8,
    pub tol: f64,
    /// The lengths of the buffers for numbers, nodes and ends.
    pub lent: [usize; 3],
}

impl Case {
    /// A case with nothing in it.
    pub fn new(entry: Entry) -> Case {
        Case {
            entry,
            number: 0,
            conn: Vec::new(),
            coords: Vec::new(),
            origin: Vec::new(),
            vector: Vec::new(),
            segments: Vec::new(),
            scaled: 0,
            strict: 0,
            tol: 0.0,
            lent: [0; 3],
        }
    }

    /// The case as one line, numbers in bits.
    pub fn told(&self) -> String {
        let bits = |list: &[f64]| {
            let bits: Vec<String> = list
                .iter()
                .map(|x| format!("{:016x}", x.to_bits()))
                .collect();
            format!("[{}]", bits.join(" "))
        };
        format!(
            "{:?}, type {}, nodes {:?}, coordinates {}, origin {}, vector {}, segments {}, \
             scaled {}, strict {}, tol {:016x} ({:e}), lent {:?}; origin {:?}, vector {:?}, first coordinates {:?}",
            self.entry,
            self.number,
            self.conn,
            bits(&self.coords),
            bits(&self.origin),
            bits(&self.vector),
            bits(&self.segments),
            self.scaled,
            self.strict,
            self.tol.to_bits(),
            self.tol,
            self.lent,
            self.origin,
            self.vector,
            &self.coords[..self.coords.len().min(24)]
        )
    }
}

/// What a call returns. What the function does not tell is 0.
#[derive(Clone, Copy, Debug, Default, PartialEq)]
pub struct Told {
    pub refusal: u32,
    /// Points, or segments.
    pub points: u32,
    pub nodes: u32,
    pub loops: u32,
    pub listed: u32,
    pub in_loops: u32,
    pub pinched: u32,
    pub flat: u32,
    pub open: u32,
    /// Crossings in the middle by default.
    pub defaulted: u32,
    /// Comparisons of points while welding.
    pub comparisons: u32,
    pub tolerance: f64,
}

/// The buffers of a call.
pub struct Lent<'a> {
    pub numbers: &'a mut [f64],
    pub nodes: &'a mut [u32],
    pub ends: &'a mut [u32],
}

/// Answers a case in these buffers.
pub type Cut = fn(&Case, Lent) -> Told;

/// The entry, called by the Rust crate's functions over lent buffers; where `scaled` or `strict` is neither 0 nor 1, which they do
/// not hand over, as C calls it.
pub fn ours(case: &Case, lent: Lent) -> Told {
    let (number, conn, coords) = (case.number, &case.conn, &case.coords);
    let (origin, vector, tol) = (&case.origin, &case.vector, case.tol);
    let (scaled, strict) = (case.scaled != 0, case.strict != 0);
    if case.scaled > 1 || case.strict > 1 {
        return by_c(case, lent);
    }
    let Lent {
        numbers,
        nodes,
        ends,
    } = lent;
    let into = |numbers, nodes, ends| Buffers {
        numbers,
        nodes,
        ends,
    };
    match case.entry {
        Entry::Plane => {
            let into = into(numbers, nodes, ends);
            section(cut_by_plane(
                number, conn, coords, origin, vector, scaled, strict, tol, into,
            ))
        }
        Entry::Stitch => {
            let into = into(numbers, nodes, ends);
            section(stitch(&case.segments, strict, tol, into))
        }
        Entry::Gather => segments(gather(
            number, conn, coords, origin, vector, scaled, tol, numbers,
        )),
        Entry::LineInSpace => segments(cut_by_line(
            number, conn, coords, origin, vector, tol, numbers,
        )),
        Entry::PlaneCellByNormal => segments(cut_plane_cell_by_normal(
            number, conn, coords, origin, vector, scaled, tol, numbers,
        )),
        Entry::PlaneCellByDirection => segments(cut_plane_cell_by_direction(
            number, conn, coords, origin, vector, tol, numbers,
        )),
        Entry::ToleranceInSpace => tolerance(tolerance_in_space(coords)),
        Entry::ToleranceInPlane => tolerance(tolerance_in_plane(coords)),
    }
}

/// The entries that have two ways of some kind as C calls them.
pub fn by_c(case: &Case, lent: Lent) -> Told {
    let found = match case.entry {
        Entry::Plane => proved::plane(case, lent),
        Entry::Stitch => proved::stitch_alone(case, lent),
        Entry::Gather | Entry::PlaneCellByNormal => {
            let found = proved::segments_by_normal(case, lent);
            return Told {
                refusal: found.refusal,
                points: found.segments,
                defaulted: found.defaulted,
                ..Told::default()
            };
        }
        other => panic!("{other:?} has one way"),
    };
    Told {
        refusal: found.refusal,
        points: found.points,
        nodes: found.nodes,
        loops: found.loops,
        listed: found.listed,
        in_loops: found.in_loops,
        pinched: found.pinched,
        flat: found.flat,
        open: found.open,
        defaulted: found.defaulted,
        comparisons: found.comparisons,
        tolerance: 0.0,
    }
}

fn refused(refusal: Refusal) -> Told {
    Told {
        refusal: refusal.number(),
        ..Told::default()
    }
}

fn section(found: Result<Written, Refusal>) -> Told {
    found.map_or_else(refused, |found| Told {
        refusal: 0,
        points: found.points as u32,
        nodes: found.nodes as u32,
        loops: found.loops as u32,
        listed: found.edges.listed,
        in_loops: found.edges.in_loops,
        pinched: found.edges.pinched,
        flat: found.edges.flat,
        open: found.edges.open,
        defaulted: found.defaulted,
        comparisons: found.comparisons,
        tolerance: 0.0,
    })
}

fn segments(found: Result<WrittenLine, Refusal>) -> Told {
    found.map_or_else(refused, |found| Told {
        points: found.segments as u32,
        defaulted: found.defaulted,
        ..Told::default()
    })
}

fn tolerance(found: Result<f64, Refusal>) -> Told {
    found.map_or_else(refused, |value| Told {
        tolerance: value,
        ..Told::default()
    })
}
