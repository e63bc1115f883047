//! Every refusal, of the owned functions and of those over lent buffers.

use cicelybeam::*;

const TET: [f64; 12] = [0., 0., 0., 1., 0., 0., 0., 1., 0., 0., 0., 1.];
const NODES: [u64; 4] = [0, 1, 2, 3];
const UP: [f64; 3] = [0., 0., 1.];
const LOW: [f64; 3] = [0., 0., 0.25];

/// The numbers of what each function refuses, tried on a cell of `plane` coordinates or space ones.
fn refused(cut: impl Fn(&[u64], &[f64], &[f64], &[f64]) -> Option<Refusal>, width: usize) {
    let (nodes, rows) = (&NODES[..width + 1], &TET[..width * (width + 1)]);
    let (origin, vector) = (&LOW[..width], &UP[3 - width..]);
    assert_eq!(cut(nodes, rows, origin, vector), None);
    assert_eq!(
        cut(&nodes[1..], rows, origin, vector),
        Some(Refusal::NodeCount)
    );
    assert_eq!(
        cut(nodes, &rows[1..], origin, vector),
        Some(Refusal::PartialRow)
    );
    assert_eq!(
        cut(nodes, &rows[width..], origin, vector),
        Some(Refusal::NoSuchRow)
    );
    for wrong in (0..6).filter(|&length| length != width) {
        let other = &[1.; 5][..wrong];
        let length = Some(Refusal::VectorLength);
        assert_eq!(cut(nodes, rows, other, vector), length);
        assert_eq!(cut(nodes, rows, origin, other), length);
    }
    assert_eq!(
        cut(nodes, rows, origin, &[0.; 3][..width]),
        Some(Refusal::NoDirection)
    );
}

#[test]
fn owned_functions_refuse() {
    let space = SpaceType::Tet4;
    let plane = PlaneType::Tri3;
    refused(
        |c, x, o, v| cut_by_plane(space, c, x, o, v, false, false, 0.).err(),
        3,
    );
    refused(|c, x, o, v| gather(space, c, x, o, v, false, 0.).err(), 3);
    refused(|c, x, o, v| cut_by_line(space, c, x, o, v, 0.).err(), 3);
    refused(
        |c, x, o, v| cut_plane_cell_by_normal(plane, c, x, o, v, false, 0.).err(),
        2,
    );
    refused(
        |c, x, o, v| cut_plane_cell_by_direction(plane, c, x, o, v, 0.).err(),
        2,
    );
}

#[test]
fn other_numbers_are_no_type() {
    for number in 0..=255 {
        let space = SpaceType::try_from(number);
        let plane = PlaneType::try_from(number);
        assert_eq!(space.is_ok(), (12..=18).contains(&number));
        assert_eq!(plane.is_ok(), (5..=11).contains(&number));
        let told = space
            .map(SpaceType::number)
            .or(plane.map(PlaneType::number));
        assert_eq!(told.ok(), (5..=18).contains(&number).then_some(number));
        assert_eq!(
            cut(number, [72, 18, 6]).err() == Some(Refusal::Type),
            space.is_err()
        );
    }
}

/// A NaN of an unusual payload: what is not written keeps its bits.
const UNTOUCHED: u64 = 0xfff4_1234_5678_9abc;

fn untouched(numbers: &[f64]) -> bool {
    numbers.iter().all(|x| x.to_bits() == UNTOUCHED)
}

/// The tetrahedron's nodes as a cell of this type, in buffers of these lengths that must stay as they were on a
/// refusal.
fn cut(number: u8, lent: [usize; 3]) -> Result<lent::Written, Refusal> {
    let mut numbers = vec![f64::from_bits(UNTOUCHED); lent[0]];
    let (mut nodes, mut ends) = (vec![7; lent[1]], vec![7; lent[2]]);
    let into = lent::Buffers {
        numbers: &mut numbers,
        nodes: &mut nodes,
        ends: &mut ends,
    };
    let found = lent::cut_by_plane(number, &NODES, &TET, &LOW, &UP, false, false, 0., into);
    if found.is_err() {
        assert!(untouched(&numbers));
        assert!(nodes.iter().chain(&ends).all(|&x| x == 7));
    }
    found
}

/// On these inputs mefikit's Rust panics (docs/DIFFERENCES.md).
#[test]
fn where_the_rust_panics_there_is_a_refusal() {
    let tet = SpaceType::Tet4;
    let by = |nodes: &[u64], origin: &[f64], normal: &[f64]| {
        cut_by_plane(tet, nodes, &TET, origin, normal, false, false, 0.).unwrap_err()
    };
    assert_eq!(cut(8, [72, 18, 6]), Err(Refusal::Type));
    assert_eq!(by(&[0, 1, 2, 9], &[0.; 3], &UP), Refusal::NoSuchRow);
    assert_eq!(by(&NODES, &[0.; 2], &UP), Refusal::VectorLength);
    assert_eq!(by(&NODES, &[0.; 3], &[1.; 2]), Refusal::VectorLength);
    for normal in [[0.; 3], [5e-324; 3], [f64::NAN; 3], [f64::INFINITY, 0., 0.]] {
        assert_eq!(by(&NODES, &[0.; 3], &normal), Refusal::NoDirection);
    }
    let along = cut_by_line(tet, &NODES, &TET, &[0.; 3], &[1e200, 0., 0.], 0.);
    assert_eq!(along, Err(Refusal::NoDirection));
}

#[test]
fn short_buffers_are_refused() {
    assert!(cut(12, [72, 18, 6]).is_ok());
    for short in [[71, 18, 6], [72, 17, 6], [72, 18, 5]] {
        assert_eq!(cut(12, short), Err(Refusal::ShortBuffer));
    }
    let line = |room| {
        let mut numbers = vec![f64::from_bits(UNTOUCHED); room];
        let found = lent::cut_by_line(12, &NODES, &TET, &LOW, &[1., 1., 0.], 1e-12, &mut numbers);
        assert!(found.is_ok() || untouched(&numbers));
        found
    };
    assert!(line(168).is_ok());
    assert_eq!(line(167), Err(Refusal::ShortBuffer));
}

#[test]
fn wrong_segments_are_refused_before_short_buffers() {
    let stitch = |n: usize| {
        let into = lent::Buffers {
            numbers: &mut [],
            nodes: &mut [],
            ends: &mut [],
        };
        lent::stitch(&[0.; 2000][..n], false, 0., into).err()
    };
    assert_eq!(stitch(0), None);
    assert_eq!(stitch(4), Some(Refusal::ShortBuffer));
    assert_eq!(stitch(1536), Some(Refusal::ShortBuffer));
    for n in [1, 2, 3, 5, 1537, 1540] {
        assert_eq!(stitch(n), Some(Refusal::Segments));
    }
}

#[test]
fn tolerances_refuse_part_of_a_row() {
    for n in 0..9 {
        let coords = &[1.; 9][..n];
        let refused = |width| (n % width != 0).then_some(Refusal::PartialRow);
        assert_eq!(tolerance_in_space(coords).err(), refused(3));
        assert_eq!(tolerance_in_plane(coords).err(), refused(2));
    }
}

#[test]
fn a_refusal_tells_what_is_wrong_and_who_can_mend_it() {
    let told = Refusal::NoSuchRow.to_string();
    assert_eq!(
        told,
        "a corner's node number is no row of the coordinates; to be mended by who describes the cell"
    );
    assert_eq!(Refusal::NoDirection.number(), 6);
    assert_eq!(Refusal::NoDirection.mender(), Mender::Cut);
}
