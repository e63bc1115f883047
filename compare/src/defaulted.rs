//! The crossings in the middle by default, counted once more from the rules' words and by why they are; and how many cuts
//! of a run have some.

use crate::answers::as_given;
use crate::entries::{Case, Entry};
use oracle::by_rules::reach::{line_normal, line_vectors, plane_cut, plane_vectors, unit};

/// The crossings of a cut by the difference of the distances of an edge's ends. The first three lie in the middle by default.
#[derive(Clone, Copy, Debug, Default, PartialEq, Eq)]
pub struct Crossings {
    /// By NaN.
    pub nan: u32,
    /// By less than 2^-1022.
    pub less: u32,
    /// By 2^-1022.
    pub least_normal: u32,
    /// By the next number after that: divided.
    pub more: u32,
    /// From one infinity to the other: divided.
    pub infinite: u32,
    /// How many of the first three a line makes on the loops of its section.
    pub on_loops: u32,
}

impl Crossings {
    /// How many lie in the middle by default.
    pub fn defaulted(&self) -> u32 {
        self.nan + self.less + self.least_normal
    }

    fn count(&mut self, a: f64, b: f64) {
        let least_normal = f64::MIN_POSITIVE;
        let difference = (a - b).abs();
        let kind = if difference.is_nan() {
            &mut self.nan
        } else if difference < least_normal {
            &mut self.less
        } else if difference == least_normal {
            &mut self.least_normal
        } else if difference == least_normal.next_up() {
            &mut self.more
        } else if a.is_infinite() && b.is_infinite() {
            &mut self.infinite
        } else {
            return;
        };
        *kind += 1;
    }

    fn add(&mut self, other: Crossings) {
        self.nan += other.nan;
        self.less += other.less;
        self.least_normal += other.least_normal;
        self.more += other.more;
        self.infinite += other.infinite;
    }
}

/// Those of a polygon, where origin and normal place the cut.
pub fn of_polygon<const D: usize>(
    polygon: &[[f64; D]],
    origin: &[f64; D],
    normal: &[f64; D],
    tol: f64,
) -> Crossings {
    let mut found = Crossings::default();
    let along = |p: &[f64; D], k: usize| (p[k] - origin[k]) * normal[k];
    let heights: Vec<f64> = polygon
        .iter()
        .map(|p| (0..D).fold(0.0, |height, k| height + along(p, k)))
        .collect();
    let above = heights.iter().any(|&h| h > tol);
    let below = heights.iter().any(|&h| h < -tol);
    if polygon.len() < 3 || !(above || below) {
        return found;
    }
    for (k, &height) in heights.iter().enumerate() {
        let next = heights[(k + 1) % heights.len()];
        let [a, b] = [height, next].map(|h| if above { h } else { -h });
        if (a >= -tol) != (b >= -tol) {
            found.count(a, b);
        }
    }
    found
}

/// Those of a case that is not refused.
pub fn of_case(case: &Case) -> Crossings {
    let case = &*as_given(case);
    match case.entry {
        Entry::Plane | Entry::Gather => of_faces(case, &plane_vectors(&array(&case.vector))[0]),
        Entry::LineInSpace => of_line(case),
        Entry::PlaneCellByNormal => of_plane_cell(case, &unit(&array(&case.vector))),
        Entry::PlaneCellByDirection => of_plane_cell(case, &line_normal(&array(&case.vector))),
        Entry::Stitch | Entry::ToleranceInSpace | Entry::ToleranceInPlane => Crossings::default(),
    }
}

fn of_faces(case: &Case, normal: &[f64; 3]) -> Crossings {
    let mut found = Crossings::default();
    for face in oracle::faces(case.number, &nodes(case)).unwrap() {
        let ring: Vec<[f64; 3]> = face.iter().map(|&at| row(case, at)).collect();
        found.add(of_polygon(&ring, &array(&case.origin), normal, case.tol));
    }
    found
}

/// Those of the faces, and those of the loops of the section by the plane that holds the line.
fn of_line(case: &Case) -> Crossings {
    let vectors = line_vectors(&array(&case.vector));
    let mut found = of_faces(case, &vectors[0]);
    let nodes = nodes(case);
    let cell = oracle::element(oracle::Cell {
        number: case.number,
        nodes: &nodes,
        coords: &case.coords,
    });
    let (points, loops) = plane_cut(&cell.unwrap(), &array(&case.origin), &vectors, case.tol);
    for nodes in loops {
        let ring: Vec<[f64; 2]> = nodes.into_iter().map(|node| points[node]).collect();
        let made = of_polygon(&ring, &[0.0; 2], &[0.0, 1.0], case.tol);
        found.add(made);
        found.on_loops += made.defaulted();
    }
    found
}

fn of_plane_cell(case: &Case, normal: &[f64; 2]) -> Crossings {
    let corners = crate::answers::kept_corners(case);
    let ring: Vec<[f64; 2]> = corners.into_iter().map(|at| row(case, at)).collect();
    of_polygon(&ring, &array(&case.origin), normal, case.tol)
}

fn nodes(case: &Case) -> Vec<usize> {
    case.conn.iter().map(|&node| node as usize).collect()
}

/// The coordinates of the node at this position.
fn row<const D: usize>(case: &Case, at: usize) -> [f64; D] {
    array(&case.coords[D * case.conn[at] as usize..][..D])
}

fn array<const D: usize>(list: &[f64]) -> [f64; D] {
    list.try_into().unwrap()
}

/// How many cuts of a run have such crossings.
#[derive(Clone, Copy, Debug, Default)]
pub struct Cuts {
    /// In the middle by default: how many cuts have one, and how many these are together.
    pub defaulted: u64,
    pub crossings: u64,
    /// How many cuts have one of each kind.
    pub nan: u64,
    pub less: u64,
    pub least_normal: u64,
    pub more: u64,
    pub infinite: u64,
    /// Of the cuts with one in the middle by default: those with a negative tolerance, those that give nothing, and those
    /// of a line that has some of its plane and some on its loops.
    pub negative_tolerance: u64,
    pub giving_nothing: u64,
    pub of_both: u64,
}

impl Cuts {
    pub fn count(&mut self, crossings: &Crossings, tol: f64, gives: bool) {
        let defaulted = crossings.defaulted();
        let some = u64::from(defaulted > 0);
        self.defaulted += some;
        self.crossings += u64::from(defaulted);
        self.nan += u64::from(crossings.nan > 0);
        self.less += u64::from(crossings.less > 0);
        self.least_normal += u64::from(crossings.least_normal > 0);
        self.more += u64::from(crossings.more > 0);
        self.infinite += u64::from(crossings.infinite > 0);
        self.negative_tolerance += some * u64::from(tol < 0.0);
        self.giving_nothing += some * u64::from(!gives);
        let on_loops = crossings.on_loops;
        self.of_both += u64::from(on_loops > 0 && on_loops < defaulted);
    }

    pub fn add(&mut self, other: &Cuts) {
        self.defaulted += other.defaulted;
        self.crossings += other.crossings;
        self.nan += other.nan;
        self.less += other.less;
        self.least_normal += other.least_normal;
        self.more += other.more;
        self.infinite += other.infinite;
        self.negative_tolerance += other.negative_tolerance;
        self.giving_nothing += other.giving_nothing;
        self.of_both += other.of_both;
    }

    /// The lines below a table's.
    pub fn print(&self) {
        println!(
            "           {} have crossings in the middle by default ({} in all): {} where distances differ by NaN, {} by \
             less than 2^-1022, {} by 2^-1022",
            self.defaulted, self.crossings, self.nan, self.less, self.least_normal
        );
        let of_both = match self.of_both {
            0 => String::new(),
            many => format!(", {many} have some of the plane and some on the loops"),
        };
        println!(
            "           of these {} have a negative tolerance, {} give nothing{of_both}; divided: {} where distances differ \
             by the next number after 2^-1022, {} from one infinity to the other",
            self.negative_tolerance, self.giving_nothing, self.more, self.infinite
        );
    }
}
