//! The segments of a plane cut before they are stitched.

use cicelybeam::*;

const BRICK: [f64; 24] = [
    0., 0., 0., 1., 0., 0., 1., 1., 0., 0., 1., 0., // the base
    0., 0., 1., 1., 0., 1., 1., 1., 1., 0., 1., 1., // above it
];
const FACES: [[u64; 4]; 6] = [
    [0, 3, 2, 1],
    [4, 5, 6, 7],
    [0, 1, 5, 4],
    [2, 3, 7, 6],
    [1, 2, 6, 5],
    [3, 0, 4, 7],
];
const UP: [f64; 3] = [0., 0., 1.];
const HALF: [f64; 3] = [0., 0., 0.5];

/// A cell of this type among the corners of the brick, and the corners of its kept faces. Mid-side nodes are no
/// rows; the polyhedron is the brick's faces and one of two nodes, which is dropped.
fn cell(kind: SpaceType) -> (Vec<u64>, usize) {
    let (corners, kept): (&[u64], _) = match kind {
        SpaceType::Tet4 | SpaceType::Tet10 => (&[0, 1, 3, 4], 12),
        SpaceType::Wedge6 | SpaceType::Wedge15 => (&[0, 1, 3, 4, 5, 7], 18),
        SpaceType::Hex8 | SpaceType::Hex21 => (&[0, 1, 2, 3, 4, 5, 6, 7], 24),
        SpaceType::Phed => return ([FACES.join(&FACE_END), vec![FACE_END, 98, 99]].concat(), 24),
    };
    let mut nodes = corners.to_vec();
    nodes.resize(kind.nodes().unwrap(), 98);
    (nodes, kept)
}

/// A NaN of an unusual payload: what is not written keeps its bits.
const UNTOUCHED: u64 = 0xfff4_1234_5678_9abc;

fn untouched(x: &f64) -> bool {
    x.to_bits() == UNTOUCHED
}

#[test]
fn the_brick_at_half_its_height() {
    let gathered = gather(
        SpaceType::Hex8,
        &cell(SpaceType::Hex8).0,
        &BRICK,
        &HALF,
        &UP,
        false,
        0.,
    );
    let sides = [
        [[0., 0.], [1., 0.]],
        [[1., 1.], [0., 1.]],
        [[1., 0.], [1., 1.]],
        [[0., 1.], [0., 0.]],
    ];
    let expected = Line {
        segments: sides.to_vec(),
        defaulted: 0,
    };
    assert_eq!(gathered, Ok(expected));
}

/// At the brick's base the faces at the sides give the same segments, and the base gives none.
#[test]
fn a_plane_that_misses_or_holds_a_face() {
    let at = |z| {
        let nodes = cell(SpaceType::Hex8).0;
        gather(
            SpaceType::Hex8,
            &nodes,
            &BRICK,
            &[0., 0., z],
            &UP,
            false,
            0.,
        )
        .unwrap()
    };
    assert_eq!(at(0.), at(0.5));
    assert!(at(2.).segments.is_empty());
}

/// Points as their bits, nodes, ends and edges.
fn bits(section: &Section) -> (Vec<u64>, &[u32], &[u32], Edges) {
    let numbers = section.points.as_flattened().iter();
    let points = numbers.map(|x| x.to_bits()).collect();
    (points, &section.nodes, &section.ends, section.edges)
}

/// But for the crossings in the middle by default, which gathering tells and stitching has none of. A brick with a corner
/// at NaN has some. The comparisons of points are the plane cut's.
#[test]
fn gathered_and_stitched_is_the_plane_cut() {
    let mut with_nan = BRICK;
    with_nan[14] = f64::NAN;
    for kind in SpaceType::ALL {
        let nodes = cell(kind).0;
        let (mut loops, mut defaulted) = (0, 0);
        for normal in [UP, [1., 1., 1.], [-3., 1., 0.5], [1e200, 0., 0.]] {
            for origin in [HALF, [0.; 3], [0.25, 0.25, 0.25], [f64::NAN; 3]] {
                for tol in [0., 1e-12, 0.25, -1., f64::NAN, f64::INFINITY] {
                    for coords in [BRICK, with_nan] {
                        let cut = cut_by_plane(
                            kind, &nodes, &coords, &origin, &normal, false, false, tol,
                        )
                        .unwrap();
                        let found =
                            gather(kind, &nodes, &coords, &origin, &normal, false, tol).unwrap();
                        let stitched = stitch(&found.segments, false, tol).unwrap();
                        assert_eq!(bits(&stitched), bits(&cut));
                        assert_eq!((found.defaulted, stitched.defaulted), (cut.defaulted, 0));
                        assert_eq!(stitched.comparisons, cut.comparisons);
                        loops += cut.ends.len();
                        defaulted += cut.defaulted;
                    }
                }
            }
        }
        assert!(loops > 9 && defaulted > 9, "{kind:?} {loops} {defaulted}");
    }
}

#[test]
fn a_cell_has_the_segments_of_its_faces_in_their_order() {
    let gathered = |kind, nodes: &[u64]| {
        gather(kind, nodes, &BRICK, &[0.5; 3], &[1., 2., 3.], false, 1e-12).unwrap()
    };
    let alone = FACES.map(|face| gathered(SpaceType::Phed, &face).segments);
    let nodes = cell(SpaceType::Hex8).0;
    assert!(alone.iter().filter(|found| !found.is_empty()).count() > 3);
    assert_eq!(gathered(SpaceType::Hex8, &nodes).segments, alone.concat());
}

/// A call on the tetrahedron, into a buffer that must stay as it was on a refusal.
struct Call {
    number: u8,
    nodes: Vec<u64>,
    coords: Vec<f64>,
    origin: Vec<f64>,
    normal: Vec<f64>,
    room: usize,
}

impl Call {
    fn sound() -> Call {
        Call {
            number: SpaceType::Tet4.number(),
            nodes: cell(SpaceType::Tet4).0,
            coords: BRICK.to_vec(),
            origin: HALF.to_vec(),
            normal: UP.to_vec(),
            room: 72,
        }
    }

    /// Makes the condition of this refusal true, whatever else is wrong.
    fn spoil(&mut self, refusal: u32) {
        match refusal {
            1 => self.number = PlaneType::Quad4.number(),
            2 => self.nodes.push(0),
            3 => self.coords.push(0.),
            4 => self.nodes[3] = 8,
            5 => self.origin.push(0.),
            6 => self.normal.fill(0.),
            _ => self.room -= 1,
        }
    }

    fn refused(&self) -> Option<u32> {
        let mut numbers = vec![f64::from_bits(UNTOUCHED); self.room];
        let Call {
            nodes,
            coords,
            origin,
            normal,
            ..
        } = self;
        let found = lent::gather(
            self.number,
            nodes,
            coords,
            origin,
            normal,
            false,
            0.,
            &mut numbers,
        );
        assert!(found.is_ok() || numbers.iter().all(untouched));
        found.err().map(Refusal::number)
    }
}

/// Each set of conditions, of which the least is told.
#[test]
fn the_least_refusal_is_told() {
    for set in 0u32..1 << 7 {
        let mut call = Call::sound();
        let conditions = (1..=7).filter(|refusal| set >> (refusal - 1) & 1 == 1);
        conditions.clone().for_each(|refusal| call.spoil(refusal));
        assert_eq!(call.refused(), conditions.min(), "{set:b}");
    }
}

#[test]
fn what_is_not_written_keeps_its_bits() {
    for kind in SpaceType::ALL {
        let (nodes, kept) = cell(kind);
        let into = |room| {
            let mut numbers = vec![f64::from_bits(UNTOUCHED); room];
            let number = kind.number();
            let found = lent::gather(number, &nodes, &BRICK, &HALF, &UP, false, 0., &mut numbers);
            (found, numbers)
        };
        let owned = gather(kind, &nodes, &BRICK, &HALF, &UP, false, 0.).unwrap();
        for room in [6 * kept, 6 * kept + 1, 6 * kept + 50] {
            let (found, numbers) = into(room);
            assert_eq!(found.unwrap().segments, owned.segments.len());
            let (written, rest) = numbers.split_at(4 * owned.segments.len());
            assert_eq!(written, owned.segments.as_flattened().as_flattened());
            assert!(rest.iter().all(untouched));
        }
        for room in [0, 6 * kept - 1] {
            let (found, numbers) = into(room);
            assert_eq!(found, Err(Refusal::ShortBuffer));
            assert!(numbers.iter().all(untouched));
        }
    }
}
