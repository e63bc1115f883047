//! The proved clipping held against mefikit's.

use crate::defaulted::{of_polygon, Crossings, Cuts};
use crate::faces::{Face, Group};
use crate::numbers::{agree, alike, same, untouched, UNTOUCHED};
use crate::proved::{self, Clipped, REFUSED};
use crate::random::Random;
use crate::Found;

/// Clips a face into a buffer.
pub type Clip<const D: usize> = fn(&Face<D>, &mut [f64]) -> Clipped;

/// The proved clipping.
pub fn ours<const D: usize>(face: &Face<D>, out: &mut [f64]) -> Clipped {
    let placed = [face.origin, face.normal];
    let mut points = vec![UNTOUCHED; face.room() / 2];
    proved::segments(&face.polygon, &placed, face.tol, &mut points, out)
}

/// How far a buffer is watched beyond what is lent.
const WATCHED: usize = 8;

/// What one face showed.
pub struct Right {
    /// There are segments.
    pub gives: bool,
    pub crossings: Crossings,
}

/// What a group came to.
#[derive(Default)]
pub struct Clippings {
    pub found: Found,
    pub cuts: Cuts,
}

/// Holds a clipping against mefikit's on one face, in an exact buffer or a longer one, and its count against a plain one
/// too.
pub fn judge<const D: usize>(
    face: &Face<D>,
    clip: Clip<D>,
    longer: usize,
    buffer: &mut Vec<f64>,
) -> Result<Right, String> {
    let lent = face.room() + longer;
    buffer.clear();
    buffer.resize(lent + WATCHED, UNTOUCHED);
    let told = clip(face, &mut buffer[..lent]);
    let wrong = |what: &str| Err(format!("{what} ({told:?}): {}", face.told()));
    if told.segments == REFUSED {
        return wrong("refused");
    }
    let written = 2 * D * told.segments;
    if written > lent {
        return wrong("more than there is room for");
    }
    let (answer, rest) = buffer.split_at(written);
    if !rest.iter().all(untouched) {
        return wrong("wrote beyond the answer");
    }
    if answer.iter().any(untouched) {
        return wrong("left a number unwritten");
    }
    let Face {
        polygon,
        origin,
        normal,
        tol,
    } = face;
    let (rules, defaulted) = oracle::defaulted(|| {
        oracle::by_rules::reach::plane_section_segments(polygon, origin, normal, *tol)
    });
    if !agree(same, answer, rules.as_flattened().as_flattened()) {
        return wrong("differs from the rules");
    }
    let rust = oracle::rust::reach::plane_section_segments(polygon, origin, normal, *tol);
    if !agree(alike, answer, rust.as_flattened().as_flattened()) {
        return wrong("differs from the Rust");
    }
    if told.defaulted != defaulted {
        return wrong(&format!(
            "{defaulted} crossings lie in the middle by default"
        ));
    }
    let crossings = of_polygon(polygon, origin, normal, *tol);
    if crossings.defaulted() as usize != defaulted {
        return wrong(&format!(
            "the plain count is {crossings:?}, not {defaulted}"
        ));
    }
    Ok(Right {
        gives: told.segments > 0,
        crossings,
    })
}

/// Holds a clipping against mefikit's on a group.
pub fn compare<const D: usize>(group: &Group<D>, cases: u64, clip: Clip<D>) -> Clippings {
    let mut random = Random::new(0x6c62_272e_07bb_0142 + D as u64);
    let mut buffer = Vec::new();
    let mut all = Clippings::default();
    for case in 0..cases * group.1 / 100 {
        let face = (group.2)(&mut random);
        let longer = if case % 2 == 0 {
            0
        } else {
            random.within(1, 40)
        };
        let outcome = judge(&face, clip, longer, &mut buffer);
        if let Ok(right) = &outcome {
            all.cuts.count(&right.crossings, face.tol, right.gives);
        }
        all.found.count(outcome.map(|right| right.gives));
    }
    all
}

#[cfg(test)]
mod tests {
    use super::*;
    use crate::faces::groups;

    /// How many of a thousand faces or more of a group are seen to differ.
    fn seen<const D: usize>(clip: Clip<D>) -> Vec<u64> {
        let groups = groups::<D>();
        let differing = |group: &Group<D>| compare(group, 100_000 / group.1, clip).found.differing;
        groups.iter().map(differing).collect()
    }

    fn each_width(space: Clip<3>, plane: Clip<2>) -> [Vec<u64>; 2] {
        [seen(space), seen(plane)]
    }

    #[test]
    fn the_proved_clipping_is_the_rusts() {
        for differing in each_width(ours, ours) {
            assert_eq!(differing, [0; 11]);
        }
    }

    /// Each group has faces with segments, so a bit changed in them is seen in each.
    #[test]
    fn a_changed_bit_is_seen() {
        fn changed<const D: usize>(face: &Face<D>, out: &mut [f64]) -> Clipped {
            let told = ours(face, out);
            if told.segments > 0 {
                let last = &mut out[2 * D * told.segments - 1];
                *last = f64::from_bits(last.to_bits() ^ 1);
            }
            told
        }
        for differing in each_width(changed, changed) {
            assert!(differing.iter().all(|&count| count > 0), "{differing:?}");
        }
    }

    /// Ends in the other order, and one segment less.
    #[test]
    fn a_wrong_order_or_count_is_seen() {
        fn turned<const D: usize>(face: &Face<D>, out: &mut [f64]) -> Clipped {
            let told = ours(face, out);
            if told.segments > 0 {
                out[..2 * D].rotate_left(D);
            }
            told
        }
        fn fewer<const D: usize>(face: &Face<D>, out: &mut [f64]) -> Clipped {
            let mut told = ours(face, out);
            told.segments = told.segments.saturating_sub(1);
            told
        }
        for differing in each_width(turned, turned)
            .iter()
            .chain(&each_width(fewer, fewer))
        {
            assert!(differing.iter().all(|&count| count > 0), "{differing:?}");
        }
    }

    /// A number written after the answer, within what is lent or at its end.
    #[test]
    fn a_number_beyond_is_seen() {
        fn beyond<const D: usize>(face: &Face<D>, out: &mut [f64]) -> Clipped {
            let told = ours(face, out);
            if let Some(next) = out.get_mut(2 * D * told.segments) {
                *next = 0.0;
            }
            told
        }
        for differing in each_width(beyond, beyond) {
            assert!(differing.iter().all(|&count| count > 0), "{differing:?}");
        }
    }

    /// A count of one more is seen in each group. Each kind of crossing that is left out, or counted too, is seen in some, so
    /// that faces of each kind are among them.
    #[test]
    fn a_wrong_count_of_crossings_is_seen() {
        fn more<const D: usize>(face: &Face<D>, out: &mut [f64]) -> Clipped {
            let mut told = ours(face, out);
            told.defaulted += 1;
            told
        }
        for differing in each_width(more, more) {
            assert!(differing.iter().all(|&count| count > 0), "{differing:?}");
        }
        fn other<const D: usize, const KIND: usize>(face: &Face<D>, out: &mut [f64]) -> Clipped {
            let told = ours(face, out);
            let Face {
                polygon,
                origin,
                normal,
                tol,
            } = face;
            let c = of_polygon(polygon, origin, normal, *tol);
            let kinds = [
                c.less + c.least_normal,
                c.nan + c.least_normal,
                c.nan + c.less,
            ];
            let defaulted = match KIND {
                3 => c.defaulted() + c.more,
                _ => kinds[KIND],
            };
            Clipped {
                defaulted: defaulted as usize,
                ..told
            }
        }
        let each = [
            each_width(other::<3, 0>, other::<2, 0>),
            each_width(other::<3, 1>, other::<2, 1>),
            each_width(other::<3, 2>, other::<2, 2>),
            each_width(other::<3, 3>, other::<2, 3>),
        ];
        for differing in each.iter().flatten() {
            assert!(differing.iter().any(|&count| count > 5), "{differing:?}");
        }
        // counted only where the point is then among those that are left
        fn seen_only<const D: usize>(face: &Face<D>, out: &mut [f64]) -> Clipped {
            let mut told = ours(face, out);
            if told.segments == 0 {
                told.defaulted = 0;
            }
            told
        }
        for differing in each_width(seen_only, seen_only) {
            assert!(differing.iter().any(|&count| count > 5), "{differing:?}");
        }
    }

    /// A zero of the other sign differs from the rules, and not from the Rust.
    #[test]
    fn a_zero_of_the_other_sign_is_seen() {
        assert!(!same(0.0, -0.0) && alike(0.0, -0.0));
        assert!(same(f64::NAN, -f64::NAN) && alike(f64::NAN, -f64::NAN));
        assert!(!same(1.0, f64::NAN) && !alike(f64::NAN, 1.0));
    }

    #[test]
    fn too_little_room_is_refused() {
        let face = Face {
            polygon: vec![[0.0; 3]; 4],
            origin: [0.0; 3],
            normal: [0.0, 0.0, 1.0],
            tol: 0.0,
        };
        let mut out = vec![UNTOUCHED; face.room()];
        let short = face.room() - 1;
        let refused = Clipped {
            segments: REFUSED,
            defaulted: 0,
        };
        assert_eq!(ours(&face, &mut out[..short]), refused);
        assert!(out.iter().all(untouched));
    }
}
