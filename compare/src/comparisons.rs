//! The comparisons of points while welding, counted once more from the rules' words; and how many lists and cuts of a run
//! have the most and the fewest that their segments can have.

use crate::answers::as_given;
use crate::entries::{Case, Entry};
use crate::lists::Segment;
use oracle::{Build, Cell};

/// How many segments were welded, and the comparisons of points that this made.
#[derive(Clone, Copy, Debug, Default, PartialEq, Eq)]
pub struct Welding {
    pub segments: usize,
    pub comparisons: usize,
}

impl Welding {
    /// Each end with all points so far, each of which was an end: 0 + 1 + .. + (2s - 1).
    pub fn has_the_most(&self) -> bool {
        self.comparisons == (0..2 * self.segments).sum()
    }

    /// Each end but the first with one point.
    pub fn has_the_fewest(&self) -> bool {
        self.comparisons + 1 == 2 * self.segments
    }
}

/// Each end, first end first, with the points so far, up to and with the first that is near. One that none is near is the
/// next point.
pub fn of_segments(segments: &[Segment], tol: f64) -> Welding {
    let mut points: Vec<[f64; 2]> = Vec::new();
    let mut comparisons = 0;
    for &end in segments.as_flattened() {
        let mut near = false;
        for point in &points {
            comparisons += 1;
            let [x, y] = [point[0] - end[0], point[1] - end[1]];
            near = x * x + y * y <= tol * tol;
            if near {
                break;
            }
        }
        if !near {
            points.push(end);
        }
    }
    Welding {
        segments: segments.len(),
        comparisons,
    }
}

/// The segments that a case stitches which is not refused: those that are gathered or handed over. Other entries tell of none.
pub fn stitched(case: &Case) -> Vec<Segment> {
    match case.entry {
        Entry::Plane => gathered(case),
        Entry::Stitch => segments(&case.segments),
        _ => Vec::new(),
    }
}

/// The segments that a plane cut gathers by the rules.
pub fn gathered(case: &Case) -> Vec<Segment> {
    let case = &*as_given(case);
    let nodes: Vec<usize> = case.conn.iter().map(|&node| node as usize).collect();
    let cell = Cell {
        number: case.number,
        nodes: &nodes,
        coords: &case.coords,
    };
    let origin = case.origin[..].try_into().unwrap();
    let normal = case.vector[..].try_into().unwrap();
    oracle::plane_segments(Build::ByRules, cell, origin, normal, case.tol).unwrap()
}

/// The segments of a list of numbers, four each.
pub fn segments(numbers: &[f64]) -> Vec<Segment> {
    numbers
        .chunks_exact(4)
        .map(|s| [[s[0], s[1]], [s[2], s[3]]])
        .collect()
}

/// What the lists or cuts of a run have.
#[derive(Clone, Copy, Debug, Default)]
pub struct Weldings {
    pub comparisons: u64,
    /// Of two segments or more: one segment has one comparison whatever it is.
    pub several: u64,
    /// How many of these have the most that there can be, and how many the fewest.
    pub most: u64,
    pub fewest: u64,
    /// The first with the greatest number.
    pub greatest: Welding,
}

impl Weldings {
    pub fn count(&mut self, welding: &Welding) {
        self.comparisons += welding.comparisons as u64;
        if welding.segments > 1 {
            self.several += 1;
            self.most += u64::from(welding.has_the_most());
            self.fewest += u64::from(welding.has_the_fewest());
        }
        self.raise(welding);
    }

    pub fn add(&mut self, other: &Weldings) {
        self.comparisons += other.comparisons;
        self.several += other.several;
        self.most += other.most;
        self.fewest += other.fewest;
        self.raise(&other.greatest);
    }

    fn raise(&mut self, welding: &Welding) {
        if welding.comparisons > self.greatest.comparisons {
            self.greatest = *welding;
        }
    }

    /// The lines below a table's.
    pub fn print(&self) {
        println!(
            "           {} comparisons of points; the most were {}, of {} segments",
            self.comparisons, self.greatest.comparisons, self.greatest.segments
        );
        println!(
            "           of {} with s segments, two or more, {} have s(2s - 1) comparisons and {} have 2s - 1, one for each \
             end but the first",
            self.several, self.most, self.fewest
        );
    }
}

/// Counts that are wrong, which a comparison has to tell from the right one.
#[cfg(test)]
pub mod wrong {
    use super::Segment;

    /// Of an end: the number of the first point near it, if any, the number of points so far, and that of the points before
    /// its segment.
    pub struct End {
        found: Option<usize>,
        points: usize,
        before: usize,
    }

    /// The sum over all ends.
    pub fn counted(segments: &[Segment], tol: f64, of_end: fn(&End) -> usize) -> usize {
        let mut points: Vec<[f64; 2]> = Vec::new();
        let mut sum = 0;
        for segment in segments {
            let before = points.len();
            for &[x, y] in segment {
                let squared = |p: &[f64; 2]| (p[0] - x) * (p[0] - x) + (p[1] - y) * (p[1] - y);
                let found = points.iter().position(|p| squared(p) <= tol * tol);
                sum += of_end(&End {
                    found,
                    points: points.len(),
                    before,
                });
                if found.is_none() {
                    points.push([x, y]);
                }
            }
        }
        sum
    }

    /// The number of the point that is near, counted from 1, or that of all points.
    pub fn right(end: &End) -> usize {
        end.found.map_or(end.points, |k| k + 1)
    }

    /// None; without the match; also beyond it; of ends that find a match alone; without the first end of the segment
    /// where that is a new point.
    pub const COUNTS: [fn(&End) -> usize; 5] = [
        |_| 0,
        |end| end.found.unwrap_or(end.points),
        |end| end.points,
        |end| end.found.map_or(0, |k| k + 1),
        |end| right(end).min(end.before),
    ];
}

#[cfg(test)]
mod tests {
    use super::*;

    fn count(segments: &[Segment], tol: f64) -> usize {
        let found = of_segments(segments, tol).comparisons;
        assert_eq!(wrong::counted(segments, tol, wrong::right), found);
        found
    }

    /// One number an end. The second end of the last segment is near its first end alone.
    #[test]
    fn by_hand() {
        let [a, b, c] = [[0.0, 0.0], [0.0, 1.0], [1.0, 0.0]];
        let sum = |each: &[usize]| each.iter().sum::<usize>();
        assert_eq!(count(&[], 0.0), 0);
        assert_eq!(
            count(&[[a, b], [b, c], [c, a]], 0.0),
            sum(&[0, 1, 2, 2, 3, 1])
        );
        let near = [[[0.0, 0.0], [4.0, 0.0]], [[2.0, 0.0], [2.5, 0.0]]];
        for tol in [1.0, -1.0] {
            assert_eq!(count(&near, tol), sum(&[0, 1, 2, 3]));
        }
        let odd = [[a, [f64::NAN, 0.0]], [[f64::NAN, 0.0], [-0.0, 0.0]]];
        assert_eq!(count(&odd, f64::INFINITY), sum(&[0, 1, 2, 1]));
    }

    #[test]
    fn the_most_and_the_fewest() {
        let same = [[[1.0, 2.0]; 2]; 384];
        for (tol, comparisons) in [(f64::NAN, 294_528), (0.0, 767), (f64::INFINITY, 767)] {
            assert_eq!(count(&same, tol), comparisons);
            let welding = of_segments(&same, tol);
            assert_eq!(welding.has_the_most(), tol.is_nan());
            assert_eq!(welding.has_the_fewest(), !tol.is_nan());
        }
        for segments in [&same[..0], &same[..1]] {
            let [all, none] = [0.0, f64::NAN].map(|tol| of_segments(segments, tol));
            assert_eq!(all, none);
        }
    }
}
