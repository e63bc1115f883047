//! What an entry has to answer: the rules' refusals, and beyond them what mefikit's Rust gives.

use crate::comparisons;
use crate::entries::{Case, Cut, Entry, Lent, Told};
use crate::numbers::agree;
use oracle::scaling::scaled;
use oracle::walks::{repeats, Edges, Walked};
use oracle::{Build, Cell, Section, Segment, Stop};
use std::borrow::Cow;

/// What a call returns and writes.
#[derive(Clone, Debug, Default)]
pub struct Answer {
    pub told: Told,
    pub numbers: Vec<f64>,
    pub nodes: Vec<u32>,
    pub ends: Vec<u32>,
}

impl Answer {
    /// Whether the other tells and writes the same, its numbers by this comparison.
    pub fn is(&self, other: &Answer, numbers: fn(f64, f64) -> bool) -> bool {
        self.told == other.told
            && agree(numbers, &self.numbers, &other.numbers)
            && self.nodes == other.nodes
            && self.ends == other.ends
    }
}

/// The most entries of a PHED, nodes of a PGON, and segments to stitch.
const MOST_ENTRIES: usize = 256;
const MOST_SEGMENTS: usize = 384;

/// The type numbers of a polygon and of a polyhedron.
pub const PGON: u8 = 11;
pub const PHED: u8 = 18;

/// The case with its normal as it is given: where it asks for a scaled one, with that of the plain model, and for a normal that is not
/// scaled since a component is not finite with zeros, which are refused at the same place.
pub fn as_given(case: &Case) -> Cow<'_, Case> {
    if case.scaled == 0 || !case.entry.takes_normal() {
        return Cow::Borrowed(case);
    }
    Cow::Owned(Case {
        vector: scaled(&case.vector).unwrap_or(vec![0.0; case.vector.len()]),
        scaled: 0,
        ..case.clone()
    })
}

/// The answer, by this build of the Rust, to a scaled normal by the plain model's, and in the strict way by another walk too.
/// `Build::Rust` tells neither crossings in the middle by default nor comparisons of points: it counts none.
pub fn answer(case: &Case, build: Build) -> Answer {
    let case = &*as_given(case);
    let found = match case.entry {
        Entry::Plane => plane(case, build),
        Entry::Gather => gather(case, build),
        Entry::LineInSpace => line_in_space(case, build),
        Entry::PlaneCellByNormal | Entry::PlaneCellByDirection => plane_cell(case, build),
        Entry::Stitch => stitch(case, build),
        Entry::ToleranceInSpace | Entry::ToleranceInPlane => tolerance(case),
    };
    found.unwrap_or_else(|refusal| Answer {
        told: Told {
            refusal,
            ..Told::default()
        },
        ..Answer::default()
    })
}

/// What this cut tells and writes, in buffers of the case's lengths.
pub fn given(case: &Case, cut: Cut) -> Answer {
    let mut numbers = vec![0.0; case.lent[0]];
    let (mut nodes, mut ends) = (vec![0; case.lent[1]], vec![0; case.lent[2]]);
    let lent = Lent {
        numbers: &mut numbers,
        nodes: &mut nodes,
        ends: &mut ends,
    };
    let told = cut(case, lent);
    numbers.truncate(case.entry.numbers_each() * told.points as usize);
    nodes.truncate(told.nodes as usize);
    ends.truncate(told.loops as usize);
    Answer {
        told,
        numbers,
        nodes,
        ends,
    }
}

/// The least lengths of the buffers, of a case that is refused by no number but 7.
pub fn room(case: &Case) -> [usize; 3] {
    let corners = kept_corners(case).len();
    let segments = case.segments.len() / 4;
    match case.entry {
        Entry::Plane => [6 * corners, 3 * corners / 2, corners / 2],
        Entry::LineInSpace => [14 * corners, 0, 0],
        Entry::Gather | Entry::PlaneCellByNormal | Entry::PlaneCellByDirection => {
            [6 * corners, 0, 0]
        }
        Entry::Stitch => [4 * segments, segments, segments / 3],
        Entry::ToleranceInSpace | Entry::ToleranceInPlane => [0; 3],
    }
}

/// The positions of corners in the nodes, face by face, as often as they stand in kept faces.
pub fn kept_corners(case: &Case) -> Vec<usize> {
    match case.number {
        5..=7 => (0..3).collect(),
        8..=10 => (0..4).collect(),
        PGON => (0..case.conn.len()).collect(),
        12 | 13 => vec![0, 1, 3, 1, 2, 3, 2, 0, 3, 0, 2, 1],
        14 | 15 => vec![
            0, 3, 2, 1, 4, 5, 6, 7, 0, 1, 5, 4, 2, 3, 7, 6, 1, 2, 6, 5, 3, 0, 4, 7,
        ],
        16 | 17 => vec![0, 2, 1, 3, 4, 5, 0, 1, 4, 3, 1, 2, 5, 4, 2, 0, 3, 5],
        PHED => {
            let places: Vec<usize> = (0..case.conn.len()).collect();
            let faces = places.split(|&at| case.conn[at] == u64::MAX);
            faces
                .filter(|face| face.len() >= 3)
                .flatten()
                .copied()
                .collect()
        }
        _ => Vec::new(),
    }
}

/// The vectors if they have their lengths, else any: refusals 1 to 4 come before 5.
fn placed<const D: usize>(case: &Case) -> (bool, [f64; D], [f64; D]) {
    let (origin, vector) = (&case.origin, &case.vector);
    match (origin.as_slice().try_into(), vector.as_slice().try_into()) {
        (Ok(origin), Ok(vector)) => (true, origin, vector),
        _ => (false, [0.0; D], [1.0; D]),
    }
}

/// The cell as the oracle takes it. The Rust limits neither PHED nor PGON.
fn cell<'a>(case: &'a Case, nodes: &'a [usize]) -> Result<Cell<'a>, u32> {
    let any_length = case.number == PGON || case.number == PHED;
    let cut = case.entry.types().contains(&case.number);
    if cut && any_length && nodes.len() > MOST_ENTRIES {
        return Err(2);
    }
    Ok(Cell {
        number: case.number,
        nodes,
        coords: &case.coords,
    })
}

fn nodes(case: &Case) -> Vec<usize> {
    case.conn.iter().map(|&node| node as usize).collect()
}

/// What this cut of the Rust gives, and its crossings in the middle by default, if neither it nor a length refuses. `fit`
/// says whether origin and vector have theirs.
fn unrefused<T>(
    case: &Case,
    fit: bool,
    cut: impl FnOnce() -> Result<T, Stop>,
) -> Result<(T, u32), u32> {
    let (found, defaulted) = oracle::defaulted(cut);
    match found {
        Err(stop) if stop != Stop::Norm => Err(stop as u32),
        _ if !fit => Err(5),
        Err(_) => Err(6),
        Ok(found) => with_room(case).map(|()| (found, defaulted as u32)),
    }
}

fn with_room(case: &Case) -> Result<(), u32> {
    let least = room(case);
    let fits = (0..3).all(|k| least[k] <= case.lent[k]);
    fits.then_some(()).ok_or(7)
}

fn plane(case: &Case, build: Build) -> Result<Answer, u32> {
    let nodes = nodes(case);
    let cell = cell(case, &nodes)?;
    let (fit, origin, normal) = placed(case);
    let counted = || {
        let cut = || oracle::plane_cut(build, cell, &origin, &normal, case.tol);
        let (cut, comparisons) = oracle::comparisons(cut);
        Ok((cut?, comparisons))
    };
    let ((cut, comparisons), defaulted) = unrefused(case, fit, counted)?;
    let segments = oracle::plane_segments(build, cell, &origin, &normal, case.tol).unwrap();
    let answer = section(case, cut, &segments, comparisons);
    let told = Told {
        defaulted,
        ..answer.told
    };
    Ok(Answer { told, ..answer })
}

fn gather(case: &Case, build: Build) -> Result<Answer, u32> {
    let nodes = nodes(case);
    let cell = cell(case, &nodes)?;
    let (fit, origin, normal) = placed(case);
    let found = || oracle::plane_segments(build, cell, &origin, &normal, case.tol);
    Ok(segments(unrefused(case, fit, found)?))
}

fn stitch(case: &Case, build: Build) -> Result<Answer, u32> {
    let numbers = &case.segments;
    if !numbers.len().is_multiple_of(4) || numbers.len() / 4 > MOST_SEGMENTS {
        return Err(8);
    }
    with_room(case)?;
    let segments = comparisons::segments(numbers);
    let stitch = || oracle::stitch(build, &segments, case.tol);
    let (found, comparisons) = oracle::comparisons(stitch);
    Ok(section(case, found, &segments, comparisons))
}

/// A section as it stands in buffers, without crossings. The counts of edges are the rules', by cosines; the Rust has none.
/// Nor has it a strict way: there the loops in which a point stands twice are left out.
fn section(case: &Case, mut found: Section, segments: &[Segment<2>], comparisons: usize) -> Answer {
    let strict = case.strict != 0;
    found.loops.retain(|nodes| !(strict && repeats(nodes)));
    let Edges {
        listed,
        in_loops,
        pinched,
        flat,
        open,
    } = Walked::new(segments, case.tol).edges(strict);
    let ends = found.loops.iter().scan(0, |total, nodes| {
        *total += nodes.len() as u32;
        Some(*total)
    });
    let nodes: Vec<u32> = found.loops.iter().flatten().map(|&n| n as u32).collect();
    Answer {
        told: Told {
            refusal: 0,
            points: found.points.len() as u32,
            nodes: nodes.len() as u32,
            loops: found.loops.len() as u32,
            listed: listed as u32,
            in_loops: in_loops as u32,
            pinched: pinched as u32,
            flat: flat as u32,
            open: open as u32,
            comparisons: comparisons as u32,
            ..Told::default()
        },
        numbers: found.points.as_flattened().to_vec(),
        nodes,
        ends: ends.collect(),
    }
}

fn line_in_space(case: &Case, build: Build) -> Result<Answer, u32> {
    let nodes = nodes(case);
    let cell = cell(case, &nodes)?;
    let (fit, origin, direction) = placed(case);
    let cut = || oracle::line_cut(build, cell, &origin, &direction, case.tol);
    Ok(segments(unrefused(case, fit, cut)?))
}

fn plane_cell(case: &Case, build: Build) -> Result<Answer, u32> {
    let nodes = nodes(case);
    let cell = cell(case, &nodes)?;
    let (fit, origin, vector) = placed(case);
    let by = match case.entry {
        Entry::PlaneCellByNormal => oracle::plane_cell_by_normal,
        _ => oracle::plane_cell_by_direction,
    };
    let cut = || by(build, cell, &origin, &vector, case.tol);
    Ok(segments(unrefused(case, fit, cut)?))
}

fn segments<const D: usize>((segments, defaulted): (Vec<Segment<D>>, u32)) -> Answer {
    Answer {
        told: Told {
            points: segments.len() as u32,
            defaulted,
            ..Told::default()
        },
        numbers: segments.as_flattened().as_flattened().to_vec(),
        ..Answer::default()
    }
}

fn tolerance(case: &Case) -> Result<Answer, u32> {
    let tolerance =
        oracle::tolerance(case.entry.width(), &case.coords).map_err(|stop| stop as u32)?;
    Ok(Answer {
        told: Told {
            tolerance,
            ..Told::default()
        },
        ..Answer::default()
    })
}
