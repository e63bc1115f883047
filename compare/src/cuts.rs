//! Cases for the entries: a cell with a cut placed in it and buffers lent, whole or with something wrong.

use crate::answers::{kept_corners, room, PGON, PHED};
use crate::cells::{kind, plane_cell, space_cell, touching, Cell};
use crate::entries::{Case, Entry};
use crate::faces::nearly_no_tolerance;
use crate::lists;
use crate::numbers::*;
use crate::random::Random;
use crate::ways::Way;
use oracle::scaling::Exact;

/// A case of this entry that is refused by no number but 6, with room that fits; of this type, if any.
pub fn sound(random: &mut Random, entry: Entry, number: Option<u8>) -> Case {
    let hexahedron = number.is_none_or(|number| [14, 15].contains(&number));
    let mut case = match entry {
        Entry::Plane if hexahedron && random.one_in(32) => touching_itself(random, number),
        Entry::Plane | Entry::Gather | Entry::LineInSpace => {
            let cell = space_cell(random, number);
            placed::<3>(random, entry, cell)
        }
        Entry::PlaneCellByNormal | Entry::PlaneCellByDirection => {
            let cell = plane_cell(random, number);
            placed::<2>(random, entry, cell)
        }
        Entry::Stitch => stitching(random),
        Entry::ToleranceInSpace | Entry::ToleranceInPlane => tolerance(random, entry),
    };
    case.lent = room(&case);
    case
}

/// A case of this entry: most are sound, in exact buffers or longer ones; some have something wrong.
pub fn any_case(random: &mut Random, entry: Entry) -> Case {
    let mut case = sound(random, entry, None);
    if random.one_in(2) {
        case.lent = case.lent.map(|least| least + random.within(0, 20));
    }
    if random.one_in(8) {
        let wrong = random.pick(refusals(entry));
        spoil(random, &mut case, wrong);
    }
    if random.one_in(64) {
        let wrong = random.pick(refusals(entry));
        spoil(random, &mut case, wrong);
    }
    // so that valgrind sees what is read beyond a list
    case.conn.shrink_to_fit();
    for list in [
        &mut case.coords,
        &mut case.origin,
        &mut case.vector,
        &mut case.segments,
    ] {
        list.shrink_to_fit();
    }
    case
}

/// The same in this way. A normal that is to be scaled is of any length.
pub fn any_case_in(random: &mut Random, entry: Entry, Way { scaled, strict }: Way) -> Case {
    let mut case = Case {
        scaled,
        strict,
        ..any_case(random, entry)
    };
    if scaled != 0 && !random.one_in(4) {
        of_any_length(random, &mut case.vector);
    }
    case
}

/// Multiplies the components by a power of two, so that the greatest that is finite gets any exponent, and some another
/// power of two beside that.
fn of_any_length(random: &mut Random, normal: &mut [f64]) {
    let finite = normal.iter().filter(|x| x.is_finite());
    let greatest = finite.fold(0.0, |most: f64, x| most.max(x.abs()));
    let Some(greatest) = Exact::of(greatest).filter(|greatest| greatest.mantissa > 0) else {
        return;
    };
    let by = random.within(0, 2097) as i32 - 1074 - greatest.power();
    let less = random.one_in(4);
    for x in normal {
        let by = match less && random.one_in(2) {
            true => by - random.within(0, 2097) as i32,
            false => by,
        };
        let exact = Exact::of(*x);
        *x = exact.map_or(*x, |exact| exact.times(by).rounded());
    }
}

/// The refusals that an entry has, in the order in which it tests them.
pub fn refusals(entry: Entry) -> &'static [u32] {
    match entry {
        Entry::Stitch => &[8, 7],
        Entry::ToleranceInSpace | Entry::ToleranceInPlane => &[3],
        _ => &[1, 2, 3, 4, 5, 6, 7],
    }
}

/// A hexahedron cut through a corner that its section passes twice.
fn touching_itself(random: &mut Random, number: Option<u8>) -> Case {
    let (cell, [origin, normal]) = touching(random, number);
    let own = oracle::tolerance(3, &cell.coords).unwrap();
    let length = random.pick(&[1.0, -1.0, 4.0]);
    Case {
        number: cell.number,
        conn: cell.conn,
        coords: cell.coords,
        origin: origin.to_vec(),
        vector: normal.map(|x| length * x).to_vec(),
        tol: random.pick(&[0.0, own]),
        ..Case::new(Entry::Plane)
    }
}

fn stitching(random: &mut Random) -> Case {
    let group = random.within(0, lists::GROUPS.len() - 3);
    let group = match random.below(200) {
        0 => lists::GROUPS.len() - 1,
        1..=3 => lists::GROUPS.len() - 2,
        _ => group,
    };
    let list = (lists::GROUPS[group].2)(random);
    Case {
        segments: list.segments.as_flattened().as_flattened().to_vec(),
        tol: list.tol,
        ..Case::new(Entry::Stitch)
    }
}

fn tolerance(random: &mut Random, entry: Entry) -> Case {
    let rows = random.pick(&[0, 1, 1, 2, 3, 8, 30]);
    let draw = kind(random);
    Case {
        coords: (0..rows * entry.width()).map(|_| draw(random)).collect(),
        ..Case::new(entry)
    }
}

// ---- the plane or line

fn placed<const D: usize>(random: &mut Random, entry: Entry, cell: Cell) -> Case {
    let mut case = Case {
        number: cell.number,
        conn: cell.conn,
        coords: cell.coords,
        ..Case::new(entry)
    };
    let corners: Vec<[f64; D]> = kept_corners(&case)
        .into_iter()
        .map(|at| corner(&case, at))
        .collect();
    case.origin = origin(random, &corners).to_vec();
    let vector: [f64; D] = vector(random, &corners);
    let scale = scale(random);
    case.vector = vector.map(|x| x * scale).to_vec();
    if case.vector.iter().all(|&x| x == 0.0) && !random.one_in(8) {
        case.vector[D - 1] = 1.0;
    }
    case.tol = tolerance_for::<D>(random, &case.coords);
    if random.one_in(8) {
        nearly_on_the_cut::<D>(random, &mut case);
    }
    case
}

/// Changes a case so that distances from the cut differ by nearly nothing: the vector lies along an axis, and along some
/// axes, that of a normal or others than that of a direction, coordinates are nearly nothing. A NaN or an infinity is
/// among them now and then.
fn nearly_on_the_cut<const D: usize>(random: &mut Random, case: &mut Case) {
    let axis = random.within(0, D - 1);
    let by_direction = matches!(case.entry, Entry::LineInSpace | Entry::PlaneCellByDirection);
    let near: [bool; D] = std::array::from_fn(|k| {
        let told_by_the_vector = (k == axis) != by_direction;
        told_by_the_vector && (D == 2 || k == axis || random.one_in(2)) || random.one_in(16)
    });
    let wild = random.one_in(4);
    for row in case.coords.chunks_exact_mut(D) {
        for k in (0..D).filter(|&k| near[k]) {
            row[k] = match random.below(8) {
                0 if wild => wild_number(random),
                _ => nearly_nothing(random),
            };
        }
    }
    for k in (0..D).filter(|&k| near[k]) {
        case.origin[k] = match random.below(4) {
            0 => nearly_nothing(random),
            _ => 0.0,
        };
    }
    let length = random.pick(&[1.0, -1.0, 4.0, 1e-3]);
    case.vector = vec![0.0; D];
    case.vector[axis] = length;
    case.tol = nearly_no_tolerance(random);
}

/// A length for vectors; with the last two a square overflows or underflows.
fn scale(random: &mut Random) -> f64 {
    match random.below(4) {
        0 => random.pick(&[2.0, 1e-3, -1.0, 1e150, 1e-150, 1e160, 1e-170]),
        _ => 1.0,
    }
}

/// The corner at this position of the nodes.
pub fn corner<const D: usize>(case: &Case, at: usize) -> [f64; D] {
    let row = case.conn[at] as usize;
    case.coords[D * row..][..D].try_into().unwrap()
}

/// A corner, the middle between two, the middle of all, or anything.
fn origin<const D: usize>(random: &mut Random, corners: &[[f64; D]]) -> [f64; D] {
    let draw = kind(random);
    if corners.is_empty() {
        return std::array::from_fn(|_| draw(random));
    }
    let (a, b) = (random.pick(corners), random.pick(corners));
    let n = corners.len() as f64;
    match random.below(8) {
        0 | 1 => a,
        2 | 3 => std::array::from_fn(|k| (a[k] + b[k]) / 2.0),
        4 => std::array::from_fn(|k| corners.iter().map(|p| p[k]).sum::<f64>() / n),
        5 => [0.0; D],
        6 => std::array::from_fn(|k| if k + 1 == D { 0.25 } else { 0.0 }),
        _ => std::array::from_fn(|_| draw(random)),
    }
}

/// Along an axis, across the plane of three corners, from one corner to another, or anything.
fn vector<const D: usize>(random: &mut Random, corners: &[[f64; D]]) -> [f64; D] {
    let draw = kind(random);
    let axis = random.within(0, D - 1);
    let along = std::array::from_fn(|k| if k == axis { 1.0 } else { 0.0 });
    if corners.len() < 3 {
        return along;
    }
    let [a, b, c] = if random.one_in(2) {
        let first = random.within(0, corners.len() - 3);
        [corners[first], corners[first + 1], corners[first + 2]]
    } else {
        [(); 3].map(|()| random.pick(corners))
    };
    match random.below(8) {
        0 | 1 => along,
        2 | 3 => across(a, b, c),
        4 => std::array::from_fn(|k| b[k] - a[k]),
        5 => std::array::from_fn(|_| ordinary(random)),
        6 => std::array::from_fn(|_| whole(random)),
        _ => std::array::from_fn(|_| draw(random)),
    }
}

/// A normal of the plane through three points, or in the plane of the line through the first two.
fn across<const D: usize>(a: [f64; D], b: [f64; D], c: [f64; D]) -> [f64; D] {
    let (u, v): ([f64; D], [f64; D]) = (
        std::array::from_fn(|k| b[k] - a[k]),
        std::array::from_fn(|k| c[k] - a[k]),
    );
    std::array::from_fn(|k| match D {
        2 => [-u[1], u[0]][k],
        _ => {
            let (i, j) = ((k + 1) % 3, (k + 2) % 3);
            u[i] * v[j] - u[j] * v[i]
        }
    })
}

/// None, the mesh's own or some times that, or any.
fn tolerance_for<const D: usize>(random: &mut Random, coords: &[f64]) -> f64 {
    let own = oracle::tolerance(D, coords).unwrap();
    match random.below(8) {
        0..=2 => own,
        3 => own * random.pick(&[0.5, 2.0, 100.0, 1e9]),
        4 | 5 => 0.0,
        6 => random.pick(&[0.25, 0.5, 1.0]),
        _ => any_tolerance(random),
    }
}

// ---- something wrong

/// Makes the condition of this refusal true, whatever else is wrong already. Whether that could be done.
pub fn spoil(random: &mut Random, case: &mut Case, refusal: u32) -> bool {
    let width = case.entry.width();
    match refusal {
        1 => case.number = other_type(random, case.entry),
        2 => wrong_count(random, case),
        3 => {
            let beyond = random.within(1, width - 1);
            case.coords.extend(vec![0.0; beyond]);
        }
        4 => return wrong_row(random, case),
        5 => {
            let wrong = *[0, 1, 2, 3, 4, 5]
                .iter()
                .filter(|&&n| n != width)
                .nth(random.within(0, 4))
                .unwrap();
            // the vector stays whole where it must be seen to have no direction
            let directed = case.vector.iter().any(|&x| x != 0.0);
            match random.below(3) {
                0 if directed => case.vector.resize(wrong, 1.0),
                1 if directed => {
                    case.vector.resize(wrong, 1.0);
                    case.origin.resize(wrong, 1.0);
                }
                _ => case.origin.resize(wrong, 1.0),
            }
        }
        6 => {
            if case.scaled != 0 {
                without_direction(random, &mut case.vector);
            } else {
                let nothing = random.pick(&[0.0, -0.0, 5e-324, f64::NAN]);
                case.vector = vec![nothing; case.vector.len()];
            }
        }
        7 => return short(random, case),
        8 => {
            if random.one_in(2) {
                let beyond = random.within(1, 3);
                case.segments.extend(vec![0.0; beyond]);
            } else {
                let many = random.pick(&[385, 386, 400, 1000]);
                case.segments.resize(4 * many, 0.5);
            }
        }
        _ => panic!("no refusal {refusal}"),
    }
    true
}

/// A normal that is to be scaled and cannot be: zeros, or a component that is not finite.
fn without_direction(random: &mut Random, normal: &mut [f64]) {
    if random.one_in(4) {
        normal.fill_with(|| random.pick(&[0.0, -0.0]));
        return;
    }
    if random.one_in(2) {
        of_any_length(random, normal);
    }
    for _ in 0..random.within(1, normal.len()) {
        let wrong = random.pick(&[f64::NAN, f64::INFINITY, f64::NEG_INFINITY]);
        let at = random.within(0, normal.len() - 1);
        normal[at] = wrong;
    }
}

/// A type that the entry does not cut: one of the other width, of lower dimension, or none at all.
fn other_type(random: &mut Random, entry: Entry) -> u8 {
    loop {
        let number = match random.below(2) {
            0 => random.below(20) as u8,
            _ => random.bits() as u8,
        };
        if !entry.types().contains(&number) {
            return number;
        }
    }
}

fn wrong_count(random: &mut Random, case: &mut Case) {
    if case.number == PHED || case.number == PGON {
        let many = random.pick(&[257, 258, 300, 1000]);
        case.conn.resize(many, 0);
        return;
    }
    match random.below(4) {
        0 => case.conn.clear(),
        1 => case.conn.truncate(case.conn.len().saturating_sub(1)),
        _ => case.conn.extend(vec![0; random.within(1, 3)]),
    }
}

/// A corner that is no row, also one whose place would wrap around; or no rows at all.
fn wrong_row(random: &mut Random, case: &mut Case) -> bool {
    let corners = kept_corners(case);
    if corners.is_empty() || corners.iter().any(|&at| at >= case.conn.len()) {
        return false;
    }
    if random.one_in(8) {
        case.coords.clear();
        return true;
    }
    let rows = (case.coords.len() / case.entry.width()) as u64;
    let at = random.pick(&corners);
    case.conn[at] = random.pick(&[
        rows,
        rows + 1,
        1 << 32,
        1 << 61,
        1 << 63,
        u64::MAX / 3 + 1,
        u64::MAX - 1,
        if case.number == PHED { rows } else { u64::MAX },
    ]);
    true
}

/// One buffer too short, by one or altogether.
fn short(random: &mut Random, case: &mut Case) -> bool {
    let least = room(case);
    let places: Vec<usize> = (0..3).filter(|&k| least[k] > 0).collect();
    if places.is_empty() {
        return false;
    }
    let place = random.pick(&places);
    case.lent[place] = random.pick(&[least[place] - 1, least[place] - 1, 0]);
    true
}
