//! The two ways of stitching and of taking a normal, and how many lists and cuts of a run have walks that pass a point twice.

use crate::entries::Entry;
use oracle::walks::{repeats, Kind, Walked};

/// What is handed over as `scaled` and as `strict`.
#[derive(Clone, Copy, Debug, PartialEq, Eq)]
pub struct Way {
    pub scaled: u8,
    pub strict: u8,
}

const fn way(scaled: u8, strict: u8) -> Way {
    Way { scaled, strict }
}

/// The usual way, the strict one, and both with scaled normals, where anything but 0 is alike.
pub const USUAL: &[Way] = &[way(0, 0)];
pub const STRICT: &[Way] = &[way(0, 1), way(0, 2), way(0, 255)];
pub const SCALED: &[Way] = &[way(1, 0), way(2, 0), way(255, 0)];
pub const SCALED_STRICT: &[Way] = &[way(1, 1), way(2, 255), way(255, 2)];

/// The ways that an entry has: the strict one where it stitches and tells what it stitched, scaled normals where it takes one.
pub fn ways(entry: Entry) -> &'static [&'static [Way]] {
    match entry {
        Entry::Plane => &[USUAL, STRICT, SCALED, SCALED_STRICT],
        Entry::Stitch => &[USUAL, STRICT],
        Entry::Gather | Entry::PlaneCellByNormal => &[USUAL, SCALED],
        _ => &[USUAL],
    }
}

/// Which walks there are that pass a point twice.
#[derive(Clone, Copy, Debug, Default, PartialEq, Eq)]
pub struct Repeats {
    /// A closed one: pinched in the strict way.
    pub pinched: bool,
    /// A pinched one without an area above the squared tolerance: flat in the usual way.
    pub pinched_flat: bool,
    /// An open one.
    pub open: bool,
    /// A pinched one, and a walk that is a loop in both ways.
    pub beside_a_loop: bool,
}

pub fn of_walks(walked: &Walked) -> Repeats {
    let mut found = Repeats::default();
    for walk in walked.walks.iter().filter(|walk| repeats(&walk.nodes)) {
        if walk.closed {
            found.pinched = true;
            found.pinched_flat |= !walk.large(&walked.points, walked.tol);
        } else {
            found.open = true;
        }
    }
    let mut walks = walked.walks.iter();
    found.beside_a_loop = found.pinched && walks.any(|w| walked.kind(w, true) == Kind::Loop);
    found
}

/// How many lists or cuts of a run have such walks.
#[derive(Clone, Copy, Debug, Default)]
pub struct Repeated {
    pub pinched: u64,
    pub pinched_flat: u64,
    pub open: u64,
    pub beside_a_loop: u64,
}

impl Repeated {
    pub fn count(&mut self, one: Repeats) {
        self.pinched += u64::from(one.pinched);
        self.pinched_flat += u64::from(one.pinched_flat);
        self.open += u64::from(one.open);
        self.beside_a_loop += u64::from(one.beside_a_loop);
    }

    pub fn add(&mut self, other: Repeated) {
        self.pinched += other.pinched;
        self.pinched_flat += other.pinched_flat;
        self.open += other.open;
        self.beside_a_loop += other.beside_a_loop;
    }

    /// The line below a table's.
    pub fn print(&self) {
        println!(
            "           {} have a closed walk that passes a point twice, {} of them one that is flat too, {} of them a loop \
             beside it; {} have an open walk that passes a point twice",
            self.pinched, self.pinched_flat, self.beside_a_loop, self.open
        );
    }
}

/// What a walk is decided to be by wrong programs, which a comparison has to tell from the right one in the strict way.
#[cfg(test)]
pub mod wrong {
    use super::{repeats, Kind, Walked};
    use oracle::walks::Walk;

    /// Flat before pinched; pinched told as flat; an open walk that passes a point twice as pinched; a walk's start as if
    /// it stood twice; as in the usual way.
    pub const KINDS: [fn(&Walked, &Walk) -> Kind; 5] = [
        |walked, walk| match walked.kind(walk, false) {
            Kind::Loop => walked.kind(walk, true),
            other => other,
        },
        |walked, walk| match walked.kind(walk, true) {
            Kind::Pinched => Kind::Flat,
            other => other,
        },
        |walked, walk| match walked.kind(walk, true) {
            Kind::Open if repeats(&walk.nodes) => Kind::Pinched,
            other => other,
        },
        |walked, walk| match walked.kind(walk, true) {
            Kind::Open => Kind::Open,
            _ => Kind::Pinched,
        },
        |walked, walk| walked.kind(walk, false),
    ];

    pub fn right(walked: &Walked, walk: &Walk) -> Kind {
        walked.kind(walk, true)
    }
}

#[cfg(test)]
mod tests {
    use super::*;

    /// The bow-tie; with a larger left part and a triangle apart; and a path that ends at another point than it started.
    #[test]
    fn by_hand() {
        let chain = |corners: &[[f64; 2]]| -> Vec<_> {
            corners.windows(2).map(|side| [side[0], side[1]]).collect()
        };
        let of = |segments: &[_]| of_walks(&Walked::new(segments, 0.0));
        let tie = |x: f64| {
            let [a, b] = [[x, -x / 2.0], [x, x / 2.0]];
            let [c, d, o] = [[2.0, 1.0], [2.0, -1.0], [0.0; 2]];
            chain(&[a, o, c, d, o, b, a])
        };
        let triangle = chain(&[[9.0, 0.0], [10.0, 0.0], [9.0, 1.0], [9.0, 0.0]]);
        let flat = Repeats {
            pinched: true,
            pinched_flat: true,
            ..Repeats::default()
        };
        let beside = Repeats {
            pinched: true,
            beside_a_loop: true,
            ..Repeats::default()
        };
        let open = Repeats {
            open: true,
            ..Repeats::default()
        };
        assert_eq!(of(&triangle), Repeats::default());
        assert_eq!(of(&tie(-2.0)), flat);
        assert_eq!(of(&[tie(-4.0), triangle].concat()), beside);
        let loose = chain(&[
            [0.0, 0.0],
            [1.0, 0.0],
            [2.0, 0.0],
            [1.0, 1.0],
            [1.0, 0.0],
            [1.0, -1.0],
        ]);
        assert_eq!(of(&loose), open);
    }
}
