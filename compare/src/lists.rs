//! Lists of plane segments on which stitching is likely to differ.

use crate::numbers::*;
use crate::random::Random;

pub type Segment = [[f64; 2]; 2];

/// Segments to stitch, the way, and the tolerance. The groups draw lists of the usual way.
#[derive(Clone, Debug)]
pub struct List {
    pub segments: Vec<Segment>,
    pub strict: u8,
    pub tol: f64,
}

impl List {
    pub fn new(segments: Vec<Segment>, tol: f64) -> List {
        List {
            segments,
            strict: 0,
            tol,
        }
    }

    /// The list as one line, in bits.
    pub fn told(&self) -> String {
        let end = |[x, y]: [f64; 2]| format!("({:016x},{:016x})", x.to_bits(), y.to_bits());
        let segment = |s: &Segment| format!("{}-{}", end(s[0]), end(s[1]));
        let segments: Vec<String> = self.segments.iter().map(segment).collect();
        format!(
            "strict {}, tol {:016x} ({:e}), {} segments {} that is {:?}",
            self.strict,
            self.tol.to_bits(),
            self.tol,
            segments.len(),
            segments.join(" "),
            self.segments
        )
    }
}

/// A group of lists: its name, how many parts in a thousand it has of all, and how it draws one.
pub type Group = (&'static str, u64, fn(&mut Random) -> List);

/// The groups.
pub const GROUPS: [Group; 14] = [
    ("edges among few whole points", 130, |random| {
        among_few(random, whole, usual_tolerance)
    }),
    ("edges among few random points", 150, |random| {
        among_few(random, ordinary, usual_tolerance)
    }),
    ("rings", 120, ring_alone),
    ("nested and touching polygons", 120, polygons),
    ("triangles around one corner", 60, around_a_corner),
    ("points at the tolerance's edge", 120, at_the_edge),
    ("repeated and reversed segments", 80, repeated),
    ("junctions with close directions", 80, close_directions),
    ("NaN and infinities", 60, |random| {
        let draw = random.pick(&[maybe_infinite as Draw, maybe_nan]);
        among_few(random, draw, any_tolerance)
    }),
    ("subnormal and huge", 40, |random| {
        let draw = random.pick(&[tiny as Draw, maybe_tiny, huge]);
        among_few(random, draw, any_tolerance)
    }),
    ("any bits", 20, |random| among_few(random, any, any)),
    ("ends all one point or all apart", 10, alike_or_apart),
    ("many edges", 8, many_edges),
    ("384 segments", 2, |random| {
        let mut list = many_edges(random);
        while list.segments.len() < 384 {
            list.segments.extend(many_edges(random).segments);
        }
        list.segments.truncate(384);
        list
    }),
];

fn point(random: &mut Random, draw: Draw) -> [f64; 2] {
    std::array::from_fn(|_| draw(random))
}

/// None to sixteen segments between three to eight points, so that junctions abound.
fn among_few(random: &mut Random, draw: Draw, tolerance: Draw) -> List {
    let points: Vec<[f64; 2]> = (0..random.within(3, 8))
        .map(|_| point(random, draw))
        .collect();
    let segments = edges_among(random, &points, 16);
    let tol = tolerance(random);
    List::new(segments, tol)
}

fn edges_among(random: &mut Random, points: &[[f64; 2]], most: usize) -> Vec<Segment> {
    (0..random.within(0, most))
        .map(|_| [random.pick(points), random.pick(points)])
        .collect()
}

/// A ring of `n` points of this radius, in its order or the other.
fn ring(random: &mut Random, n: usize, radius: f64) -> Vec<Segment> {
    let [x, y] = point(random, ordinary);
    let step = std::f64::consts::TAU / n as f64;
    let corner = |k: usize| {
        let angle = step * (k % n) as f64;
        [x + radius * angle.cos(), y + radius * angle.sin()]
    };
    let mut ring: Vec<Segment> = (0..n).map(|k| [corner(k), corner(k + 1)]).collect();
    if random.one_in(2) {
        ring.iter_mut().for_each(|s| s.reverse());
    }
    ring
}

/// A ring whose segments come in any order and either way round, whole or with one missing.
fn ring_alone(random: &mut Random) -> List {
    let n = random.within(3, 24);
    let radius = random.pick(&[1.0, 1e-3, 1e3]);
    let mut segments = ring(random, n, radius);
    if random.one_in(4) {
        segments.swap_remove(random.within(0, n - 1));
    }
    if random.one_in(2) {
        mixed(random, &mut segments);
    }
    let tol = usual_tolerance(random);
    List::new(segments, tol)
}

/// The segments in any order, each either way round.
fn mixed(random: &mut Random, segments: &mut [Segment]) {
    random.shuffle(segments);
    for segment in segments {
        if random.one_in(2) {
            segment.reverse();
        }
    }
}

/// Squares and triangles with whole corners, one inside another or with corners and sides in common.
fn polygons(random: &mut Random) -> List {
    let mut segments = Vec::new();
    for _ in 0..random.within(1, 5) {
        let [x, y] = point(random, whole);
        let side = random.pick(&[1.0, 2.0, 3.0, 4.0]);
        let corners: &[[f64; 2]] = if random.one_in(2) {
            &[[x, y], [x + side, y], [x + side, y + side], [x, y + side]]
        } else {
            &[[x, y], [x + side, y], [x, y + side]]
        };
        let n = corners.len();
        segments.extend((0..n).map(|k| [corners[k], corners[(k + 1) % n]]));
    }
    if random.one_in(2) {
        mixed(random, &mut segments);
    }
    let tol = random.pick(&[0.0, 1e-12, 1e-9, 0.5, 1.0]);
    List::new(segments, tol)
}

/// One to three pairs of triangles that share a corner, each pair across it from one another and alike or not in size, so that
/// a walk goes straight on there, from one to the other; a square apart and an edge that ends at the corner now and then.
fn around_a_corner(random: &mut Random) -> List {
    let corner = point(random, whole);
    let at = |[x, y]: [f64; 2], scale: f64| [corner[0] + scale * x, corner[1] + scale * y];
    let mut segments = Vec::new();
    for _ in 0..random.within(1, 3) {
        let (a, b) = (point(random, whole), point(random, whole));
        for scale in [1.0, random.pick(&[-1.0, -2.0, -0.5])] {
            let (a, b) = (at(a, scale), at(b, scale));
            segments.extend([[a, b], [b, corner], [corner, a]]);
        }
    }
    if random.one_in(2) {
        let [a, b, c, d] = [[20.0, 20.0], [21.0, 20.0], [21.0, 21.0], [20.0, 21.0]];
        segments.extend([[a, b], [b, c], [c, d], [d, a]]);
    }
    if random.one_in(4) {
        segments.push([point(random, whole), corner]);
    }
    if random.one_in(2) {
        mixed(random, &mut segments);
    }
    let tol = random.pick(&[0.0, 1e-12, 1e-9, 0.5, 1.0]);
    List::new(segments, tol)
}

/// Points at whole and half tolerances from one another and beside that, so that which of them weld
/// hangs on the last digit and on their order; areas near the squared tolerance too.
fn at_the_edge(random: &mut Random) -> List {
    let tol = random.pick(&[1.0, 0.25, 1e-3, 1e-9, 1e-12, 1.4e-12]);
    let shift = random.pick(&[0.0, 0.0, 1.0, -3.0]);
    let near = |random: &mut Random| {
        let x: f64 = shift + tol * random.pick(&[-2.0, -1.5, -1.0, -0.5, 0.0, 0.5, 1.0, 1.5, 2.0]);
        match random.below(4) {
            0 => x.next_up(),
            1 => x.next_down(),
            _ => x,
        }
    };
    let points: Vec<[f64; 2]> = (0..random.within(3, 10))
        .map(|_| std::array::from_fn(|_| near(random)))
        .collect();
    let segments = edges_among(random, &points, 20);
    List::new(segments, tol)
}

/// A list of another group, with segments of it once more, as they are or reversed.
fn repeated(random: &mut Random) -> List {
    let mut list = match random.below(3) {
        0 => ring_alone(random),
        1 => polygons(random),
        _ => among_few(random, whole, usual_tolerance),
    };
    for _ in 0..random.within(1, 6) {
        if !list.segments.is_empty() {
            let [a, b] = random.pick(&list.segments);
            let again = if random.one_in(2) { [a, b] } else { [b, a] };
            let place = random.within(0, list.segments.len());
            list.segments.insert(place, again);
        }
    }
    list
}

/// A walk comes to the origin, where two to four edges on go nearly the same way; each closes a
/// triangle.
fn close_directions(random: &mut Random) -> List {
    let from = [-1.0, 0.0];
    let here = [0.0, 0.0];
    let mut segments = vec![[from, here]];
    let small = |random: &mut Random| (random.below(24) + 1) as f64;
    for k in 0..random.within(2, 4) {
        let far = match random.below(3) {
            0 => [small(random), small(random)],
            1 => [small(random), -small(random)],
            _ => [
                2f64.powi(-(random.within(20, 60) as i32)),
                random.pick(&[1.0, -1.0]),
            ],
        };
        let back = if k == 0 { from } else { [-1.0, -(k as f64)] };
        segments.extend([[here, far], [far, back]]);
        if k > 0 {
            segments.push([back, here]);
        }
    }
    List::new(segments, 0.0)
}

/// Segments, as many as fill the small tables of the code or the large ones and some more or fewer, whose ends are all one
/// point, which may have zeros of either sign, or all apart. Some have numbers that are not finite.
fn alike_or_apart(random: &mut Random) -> List {
    let many = match random.below(16) {
        0 => random.pick(&[383, 384]),
        _ => random.pick(&[0, 1, 2, 3, 15, 16, 17, 18]),
    };
    let (apart, wild) = (random.one_in(2), random.one_in(4));
    let end = |random: &mut Random, k: usize| {
        let x = match random.below(8) {
            0 if wild => wild_number(random),
            _ if apart => 2.0 * k as f64,
            _ => random.pick(&[0.0, -0.0]),
        };
        [x, random.pick(&[0.0, -0.0])]
    };
    let segments = (0..many)
        .map(|k| [end(random, 2 * k), end(random, 2 * k + 1)])
        .collect();
    let tol = random.pick(&[
        0.0,
        -0.0,
        1e-12,
        1.0,
        -1.0,
        f64::INFINITY,
        f64::NEG_INFINITY,
        f64::NAN,
    ]);
    List::new(segments, tol)
}

/// Up to 384 segments: a ring, polygons side by side, or edges among some tens of points.
fn many_edges(random: &mut Random) -> List {
    let mut segments = match random.below(3) {
        0 => {
            let n = random.within(25, 384);
            ring(random, n, 1.0)
        }
        1 => (0..random.within(8, 24))
            .flat_map(|_| polygons(random).segments)
            .collect(),
        _ => {
            let draw = random.pick(&[ordinary as Draw, whole]);
            let points: Vec<[f64; 2]> = (0..random.within(5, 60))
                .map(|_| point(random, draw))
                .collect();
            edges_among(random, &points, 384)
        }
    };
    if random.one_in(2) {
        mixed(random, &mut segments);
    }
    segments.truncate(384);
    let tol = usual_tolerance(random);
    List::new(segments, tol)
}
