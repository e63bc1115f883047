//! Polygons and cuts on which clipping is likely to differ, at both widths.

use crate::numbers::*;
use crate::random::Random;

/// A polygon and the plane or line that cuts it.
#[derive(Clone, Debug)]
pub struct Face<const D: usize> {
    pub polygon: Vec<[f64; D]>,
    pub origin: [f64; D],
    pub normal: [f64; D],
    pub tol: f64,
}

impl<const D: usize> Face<D> {
    /// The numbers that room for the segments takes.
    pub fn room(&self) -> usize {
        2 * D * (3 * self.polygon.len() / 2)
    }

    /// The face as one line, in bits.
    pub fn told(&self) -> String {
        let bits = |p: &[f64; D]| p.map(|x| format!("{:016x}", x.to_bits())).join(" ");
        let corners: Vec<String> = self.polygon.iter().map(bits).collect();
        format!(
            "origin {}, normal {}, tol {:016x} ({:e}), {} corners {} (the first {:?})",
            bits(&self.origin),
            bits(&self.normal),
            self.tol.to_bits(),
            self.tol,
            corners.len(),
            corners.join(", "),
            self.polygon.first()
        )
    }
}

/// A group of faces: its name, how many parts in a hundred it has of all, and how it draws one.
pub type Group<const D: usize> = (&'static str, u64, fn(&mut Random) -> Face<D>);

/// The groups.
pub fn groups<const D: usize>() -> [Group<D>; 11] {
    [
        ("random polygons", 16, random_polygon),
        ("corners at the tolerance's edge", 18, at_the_edge),
        ("corners on a lattice", 16, on_a_lattice),
        ("corners nearly on the cut", 10, nearly_on_the_cut),
        ("subnormal", 8, |random| {
            drawn(random, maybe_tiny, tiny_tolerance)
        }),
        ("huge", 8, |random| drawn(random, huge, any_tolerance)),
        ("infinities", 8, |random| {
            drawn(random, maybe_infinite, any_tolerance)
        }),
        ("NaN", 8, |random| drawn(random, maybe_nan, any_tolerance)),
        ("any bits", 6, |random| drawn(random, any, any)),
        ("any kinds of numbers", 1, any_kinds),
        ("many corners", 1, many_corners),
    ]
}

/// The most corners that are cut at this width.
pub const fn most_corners(width: usize) -> usize {
    match width {
        2 => 384,
        _ => 256,
    }
}

fn point<const D: usize>(random: &mut Random, draw: Draw) -> [f64; D] {
    std::array::from_fn(|_| draw(random))
}

/// Up to eight corners mostly, and three or four the most often.
fn corners(random: &mut Random) -> usize {
    match random.below(16) {
        0 => random.within(0, 2),
        1..=8 => random.within(3, 4),
        _ => random.within(5, 8),
    }
}

/// A unit vector, one along an axis among them.
fn unit<const D: usize>(random: &mut Random) -> [f64; D] {
    if random.one_in(4) {
        let axis = random.within(0, D - 1);
        let length = random.pick(&[1.0, -1.0]);
        return std::array::from_fn(|k| if k == axis { length } else { 0.0 });
    }
    let v = point::<D>(random, ordinary);
    let norm = v.iter().map(|x| x * x).sum::<f64>().sqrt();
    v.map(|x| x / norm)
}

fn random_polygon<const D: usize>(random: &mut Random) -> Face<D> {
    let polygon = (0..corners(random))
        .map(|_| point(random, ordinary))
        .collect();
    let origin = point::<D>(random, ordinary).map(|x| x / 4.0);
    let normal = unit(random);
    let tol = usual_tolerance(random);
    Face {
        polygon,
        origin,
        normal,
        tol,
    }
}

/// Coordinates that are whole and half multiples of the tolerance and their neighbours, so that
/// distances, and squared distances of neighbours, fall on both sides of it and on it.
fn at_the_edge<const D: usize>(random: &mut Random) -> Face<D> {
    let tol = random.pick(&[1.0, 0.25, 1e-3, 1e-9, 1e-12, 1.4e-12]);
    let shift = random.pick(&[0.0, 0.0, 1.0, -3.0]);
    let near = |random: &mut Random| {
        let x: f64 =
            shift + tol * random.pick(&[-3.0, -2.0, -1.0, -0.5, 0.0, 0.0, 0.5, 1.0, 2.0, 3.0]);
        let x = match random.below(4) {
            0 => x.next_up(),
            1 => x.next_down(),
            _ => x,
        };
        if random.one_in(4) {
            x + random.pick(&[-1.0, 1.0])
        } else {
            x
        }
    };
    let polygon = (0..corners(random))
        .map(|_| std::array::from_fn(|_| near(random)))
        .collect();
    Face {
        polygon,
        origin: [shift; D],
        normal: unit(random),
        tol,
    }
}

/// Small whole numbers, corners repeated among them; normals that are not unit, the zero vector too.
fn on_a_lattice<const D: usize>(random: &mut Random) -> Face<D> {
    let n = corners(random);
    let mut polygon: Vec<[f64; D]> = Vec::new();
    for _ in 0..n {
        let again = !polygon.is_empty() && random.one_in(4);
        let corner = if again {
            random.pick(&polygon)
        } else {
            point(random, whole)
        };
        polygon.push(corner);
    }
    let normal = if random.one_in(2) {
        unit(random)
    } else {
        point(random, whole)
    };
    let origin = point::<D>(random, whole).map(|x| x / 2.0);
    let tol = random.pick(&[0.0, 0.0, 1e-12, 0.5, 0.5f64.next_up(), 1.0, 1.5, 2.0, -1.0]);
    Face {
        polygon,
        origin,
        normal,
        tol,
    }
}

/// Along one axis nearly nothing, a NaN or an infinity now and then, so that distances differ by nearly nothing where the
/// normal lies along it; along the others anything or nearly nothing too.
fn nearly_on_the_cut<const D: usize>(random: &mut Random) -> Face<D> {
    let axis = random.within(0, D - 1);
    let others = random.pick(&[whole as Draw, ordinary, nearly_nothing]);
    let wild = random.one_in(4);
    let polygon = (0..corners(random)).map(|_| {
        let mut corner: [f64; D] = point(random, others);
        corner[axis] = match random.below(8) {
            0 if wild => wild_number(random),
            _ => nearly_nothing(random),
        };
        corner
    });
    let polygon = polygon.collect();
    let mut origin = [0.0; D];
    if random.one_in(4) {
        origin[axis] = nearly_nothing(random);
    }
    let length = random.pick(&[1.0, 1.0, -1.0, 0.5, 2.0, 1e300]);
    let normal = match random.below(8) {
        0 => unit::<D>(random).map(|x| x * length),
        _ => std::array::from_fn(|k| if k == axis { length } else { 0.0 }),
    };
    let tol = nearly_no_tolerance(random);
    Face {
        polygon,
        origin,
        normal,
        tol,
    }
}

/// None mostly, nearly none of either sign, or any.
pub fn nearly_no_tolerance(random: &mut Random) -> f64 {
    match random.below(8) {
        0 => any_tolerance(random),
        1 | 2 => nearly_nothing(random),
        _ => 0.0,
    }
}

fn tiny_tolerance(random: &mut Random) -> f64 {
    match random.below(4) {
        0 => any_tolerance(random),
        1 => tiny(random).abs(),
        _ => 0.0,
    }
}

/// Corners and origin of one kind of number; the normal too, or a unit vector, or a large one.
fn drawn<const D: usize>(random: &mut Random, draw: Draw, tolerance: Draw) -> Face<D> {
    let polygon = (0..corners(random)).map(|_| point(random, draw)).collect();
    let origin = match random.below(3) {
        0 => [0.0; D],
        _ => point(random, draw),
    };
    let normal = match random.below(4) {
        0 => point(random, draw),
        1 => unit::<D>(random).map(|x| x * 1e300),
        _ => unit(random),
    };
    Face {
        polygon,
        origin,
        normal,
        tol: tolerance(random),
    }
}

/// Each number of a kind of its own.
fn any_kinds<const D: usize>(random: &mut Random) -> Face<D> {
    fn mixed(random: &mut Random) -> f64 {
        let draw = random.pick(&[
            ordinary as Draw,
            whole,
            tiny,
            huge,
            any,
            maybe_infinite,
            maybe_nan,
        ]);
        draw(random)
    }
    drawn(random, mixed, any_tolerance)
}

/// As many corners as are cut, above and below in turn, so that nearly every edge crosses.
fn many_corners<const D: usize>(random: &mut Random) -> Face<D> {
    let most = most_corners(D);
    let n = if random.one_in(4) {
        most
    } else {
        random.within(9, most)
    };
    let mut polygon: Vec<[f64; D]> = (0..n).map(|_| point(random, ordinary)).collect();
    let turns = random.one_in(2);
    for (k, corner) in polygon.iter_mut().enumerate() {
        let height = corner[D - 1].abs() + 0.01;
        if turns {
            corner[D - 1] = if k % 2 == 0 { height } else { -height };
        }
    }
    let normal = if turns {
        std::array::from_fn(|k| if k == D - 1 { 1.0 } else { 0.0 })
    } else {
        unit(random)
    };
    Face {
        polygon,
        origin: [0.0; D],
        normal,
        tol: usual_tolerance(random),
    }
}
