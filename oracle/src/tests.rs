use super::*;
use counts::{counts, listed, Counts};
use walks::{repeats, Edges, Walked};

const MAX: usize = usize::MAX;
const UP: [f64; 3] = [0.0, 0.0, 1.0];
const EIGHT: [usize; 8] = [0, 1, 2, 3, 4, 5, 6, 7];

/// The unit cube, moved along x.
fn brick(x: f64) -> Vec<f64> {
    let base = [[0.0, 0.0], [1.0, 0.0], [1.0, 1.0], [0.0, 1.0]];
    let level = |z: f64| base.into_iter().flat_map(move |p| [p[0] + x, p[1], z]);
    level(0.0).chain(level(1.0)).collect()
}

fn hex(coords: &[f64]) -> Cell<'_> {
    let nodes = &EIGHT;
    Cell {
        number: 14,
        nodes,
        coords,
    }
}

fn tet() -> Cell<'static> {
    Cell {
        number: 12,
        nodes: &[0, 1, 2, 3],
        coords: &[0.0, 0.0, 0.0, 1.0, 0.0, 0.0, 0.0, 1.0, 0.0, 0.0, 0.0, 1.0],
    }
}

fn chain(corners: &[[f64; 2]]) -> Vec<Segment<2>> {
    corners.windows(2).map(|side| [side[0], side[1]]).collect()
}

fn told(segments: &[Segment<2>], tol: f64) -> Counts {
    counts(segments, tol, &stitch(Build::Rust, segments, tol))
}

#[test]
fn the_source_is_unchanged() {
    let source = |name: &str| std::fs::read_to_string(format!("{}/{name}", env!("ORACLE_TOOLS")));
    let copy = include_str!(concat!(env!("OUT_DIR"), "/rust.rs"));
    let rest = copy.strip_prefix(&source("slice.rs").unwrap()).unwrap();
    assert!(rest.starts_with("pub mod reach") && rest.lines().count() == 1);
    assert_eq!(
        include_str!(concat!(env!("OUT_DIR"), "/snap.rs")),
        source("snap.rs").unwrap()
    );
}

/// Two calls, each before a value that stays as it is. Points are compared in `push_coord`, which stitching alone calls.
#[test]
fn the_counted_source_counts_in_two_places() {
    let source = include_str!(concat!(env!("OUT_DIR"), "/rust.rs"));
    let counted = include_str!(concat!(env!("OUT_DIR"), "/counted.rs"));
    assert_eq!(counted.matches("crate::count_").count(), 2);
    let undone = counted
        .replace(
            "        crate::count_defaulted();\n        0.5\n",
            "        0.5\n",
        )
        .replace(
            "|q| { crate::count_comparison(); dist2(q, &p) <= tol2 }",
            "|q| dist2(q, &p) <= tol2",
        );
    assert_eq!(undone, source);
    let stitching = source.find("fn stitch_segments").unwrap();
    let calls = source.match_indices("push_coord(&mut");
    assert_eq!(calls.filter(|&(at, _)| at > stitching).count(), 2);
    assert_eq!(source.matches("push_coord").count(), 3);
}

/// The count of each build, of a triangle with two corners this high and one as low that the axis y = 0 cuts.
#[test]
fn crossings_in_the_middle_by_default_are_counted() {
    let least = f64::from_bits(1);
    let edge = f64::MIN_POSITIVE;
    let count = |build, high: f64, low: [f64; 2]| {
        let ring = [[0.0, high], [4.0, high], low];
        let (origin, normal) = ([0.0; 2], [0.0, 1.0]);
        let cut = || ask!(build, plane_section_segments(&ring, &origin, &normal, 0.0));
        defaulted(cut).1
    };
    for build in [Build::Counted, Build::ByCosine, Build::ByRules] {
        assert_eq!(count(build, least, [0.0, -least]), 2);
        assert_eq!(count(build, edge / 2.0, [0.0, -edge / 2.0]), 2);
        assert_eq!(count(build, edge / 2.0 + least, [0.0, -edge / 2.0]), 0);
        assert_eq!(count(build, 1.0, [0.0, f64::NAN]), 2);
        assert_eq!(count(build, f64::INFINITY, [0.0, f64::NEG_INFINITY]), 0);
        assert_eq!(count(build, 1.0, [0.0, -1.0]), 0);
        assert_eq!(count(build, least, [0.0, least]), 0);
    }
    assert_eq!(count(Build::Rust, least, [0.0, -least]), 0);
}

/// The plane crosses each of the four edges along z in two faces.
#[test]
fn the_faces_of_a_cell_add_up() {
    let coords = brick(0.0).iter().map(|x| x * 1e-310).collect::<Vec<_>>();
    let origin = [0.0, 0.0, 5e-311];
    let cut = || plane_cut(Build::Counted, hex(&coords), &origin, &UP, 0.0).unwrap();
    let (found, count) = defaulted(cut);
    assert_eq!((found.points.len(), count), (0, 8));
    assert_eq!(defaulted(|| stitch(Build::Counted, &[], 0.0)).1, 0);
}

/// The comparisons of points of each build that counts; the Rust as it stands counts none.
fn compared(segments: &[Segment<2>], tol: f64) -> usize {
    let count = |build| comparisons(|| stitch(build, segments, tol)).1;
    let [rust, counted, by_cosine, by_rules] = BUILDS.map(count);
    assert_eq!([rust, by_cosine, by_rules], [0, counted, counted]);
    counted
}

/// Up to and with the first match, or with all points so far; the second end also with the first, once that is a point.
#[test]
fn comparisons_of_points_are_counted() {
    let nan = f64::NAN;
    let triangle = chain(&[[0.0, 0.0], [0.0, 1.0], [1.0, 0.0], [0.0, 0.0]]);
    assert_eq!(compared(&[], 0.0), 0);
    assert_eq!(compared(&triangle[..1], 0.0), 1);
    assert_eq!(compared(&triangle, 0.0), [0, 1, 2, 2, 3, 1].iter().sum());
    assert_eq!(compared(&triangle, nan), [0, 1, 2, 3, 4, 5].iter().sum());
    for tol in [f64::INFINITY, 1.5, -1.5] {
        assert_eq!(compared(&triangle, tol), 5);
    }
    // the second end of the second segment is near the first end of it alone
    let apart = [[[0.0, 0.0], [4.0, 0.0]], [[2.0, 0.0], [2.5, 0.0]]];
    assert_eq!(compared(&apart, 1.0), [0, 1, 2, 3].iter().sum());
    // an end at NaN is near nothing, also with an infinite tolerance
    let odd = [[[0.0, 0.0], [nan, 0.0]], [[nan, 0.0], [-0.0, 0.0]]];
    assert_eq!(compared(&odd, f64::INFINITY), [0, 1, 2, 1].iter().sum());
    let many = vec![[[1.0, 2.0], [3.0, 4.0]]; 384];
    assert_eq!(compared(&many, nan), 384 * 767);
    assert_eq!(compared(&many, f64::INFINITY), 767);
}

/// A plane cut compares what its segments, stitched, do; gathering them compares nothing; a mesh has those of its cells.
#[test]
fn cuts_compare_as_stitching_does() {
    let mut coords = brick(0.0);
    let build = Build::Counted;
    let at = [0.0, 0.0, 0.5];
    let cut = comparisons(|| plane_cut(build, hex(&coords), &at, &UP, 0.0).unwrap()).1;
    assert_eq!(cut, [0, 1, 2, 3, 2, 3, 4, 1].iter().sum());
    let (segments, gathering) =
        comparisons(|| plane_segments(build, hex(&coords), &at, &UP, 0.0).unwrap());
    assert_eq!((compared(&segments, 0.0), gathering), (cut, 0));
    coords.extend(brick(5.0));
    let second = EIGHT.map(|node| node + 8).to_vec();
    let mesh = Mesh {
        columns: 3,
        coords,
        cells: vec![(14, EIGHT.to_vec()), (14, second)],
    };
    let whole = comparisons(|| slice(build, &mesh, &at, &UP).unwrap()).1;
    assert_eq!(whole, 2 * cut);
}

#[test]
fn case_1_faces_are_positions() {
    let found = faces(18, &[0, 1, 2, MAX, 3, 4, MAX, 5, 6, 7]).unwrap();
    assert_eq!(found, [[0, 1, 2], [7, 8, 9]]);
}

#[test]
fn cases_2_and_3_brick() {
    let coords = brick(0.0);
    for build in BUILDS {
        for height in [0.0, 0.5] {
            let cut = plane_cut(build, hex(&coords), &[0.0, 0.0, height], &UP, 0.0).unwrap();
            assert_eq!(cut.points, [[0.0, 0.0], [1.0, 0.0], [1.0, 1.0], [0.0, 1.0]]);
            assert_eq!(cut.loops, [[0, 1, 2, 3]]);
        }
        let above = plane_cut(build, hex(&coords), &[0.0, 0.0, 2.0], &UP, 0.0).unwrap();
        assert!(above.points.is_empty() && above.loops.is_empty());
    }
}

#[test]
fn case_4_tetrahedron() {
    let cut = |z| plane_cut(Build::Rust, tet(), &[0.0, 0.0, z], &UP, 0.0).unwrap();
    assert!(cut(1.0).loops.is_empty());
    let low = cut(0.25);
    assert_eq!(low.loops.len(), 1);
    assert_eq!(area(&low.loops[0], &low.points), 0.28125);
}

#[test]
fn cases_5_to_10_stitching() {
    let both = |listed, in_loops| Counts { listed, in_loops };
    let triangle = chain(&[[0.0, 0.0], [0.0, 1.0], [1.0, 0.0], [0.0, 0.0]]);
    let line = chain(&[[0.0, 0.0], [1.0, 0.0], [2.0, 0.0], [0.0, 0.0]]);
    let tie = chain(&[
        [-2.0, 1.0],
        [0.0, 0.0],
        [2.0, 1.0],
        [2.0, -1.0],
        [0.0, 0.0],
        [-2.0, -1.0],
        [-2.0, 1.0],
    ]);
    assert_eq!(told(&[], 0.0), both(0, 0));
    assert_eq!(stitch(Build::Rust, &triangle, 0.0).loops, [[2, 1, 0]]);
    assert_eq!(told(&triangle, 0.0), both(3, 3));
    assert_eq!(told(&triangle[..2], 0.0), both(2, 0));
    assert_eq!(stitch(Build::Rust, &triangle, f64::NAN).points.len(), 6);
    assert_eq!(told(&triangle, f64::NAN), both(3, 0));
    assert_eq!(told(&line, 0.0), both(3, 0));
    assert_eq!(told(&tie, 0.0), both(6, 0));
    assert_eq!(area(&[0, 1, 3, 2, 1, 4], &listed(&tie, 0.0).0), 0.0);
}

#[test]
fn case_11_tolerance() {
    assert_eq!(tolerance(3, &[3.0, 4.0, 0.0]), Ok(2f64.powi(-44)));
    assert_eq!(tolerance(3, &[]), Ok(1e-12));
    assert_eq!(
        tolerance(2, &[f64::NAN, 1.0, f64::NAN, 3.0]),
        Ok(2e-12 + 3.0 * 2f64.powi(-46))
    );
    assert_eq!(tolerance(3, &[0.0; 4]), Err(Stop::Rows));
}

#[test]
fn case_13_odd_normals() {
    let coords = brick(0.0);
    let plane = |normal| plane_cut(Build::Rust, hex(&coords), &[0.5; 3], &normal, 0.0);
    let line = |along| line_cut(Build::Rust, hex(&coords), &[0.5; 3], &along, 0.0);
    let huge = [1e200, 0.0, 0.0];
    assert!(plane(huge).unwrap().loops.is_empty());
    assert_eq!(line(huge), Err(Stop::Norm));
    assert_eq!(plane([0.0; 3]), Err(Stop::Norm));
    assert_eq!(plane([5e-324; 3]), Err(Stop::Norm));
    let infinite = [f64::INFINITY, 0.0, 0.0];
    assert_eq!(plane(infinite), Err(Stop::Norm));
    let square = Cell {
        number: 8,
        nodes: &[0, 1, 2, 3],
        coords: &[0.0, 0.0, 1.0, 0.0, 1.0, 1.0, 0.0, 1.0],
    };
    let normal = [f64::INFINITY, 0.0];
    let by_normal = plane_cell_by_normal(Build::Rust, square, &[0.5; 2], &normal, 0.0);
    let by_direction = plane_cell_by_direction(Build::Rust, square, &[0.5; 2], &normal, 0.0);
    assert_eq!(by_normal, Ok(Vec::new()));
    assert_eq!(by_direction, Err(Stop::Norm));
}

#[test]
fn slice_panics_on_types_of_another_dimension() {
    let coords = brick(0.0);
    let rows = rows(3, &coords).unwrap();
    let nodes = [0; 21];
    for number in 0..19 {
        let element_type = ElementType::of_number(number).unwrap();
        let cell = Element::alone(element_type, &nodes, rows);
        let has_faces = caught((), || rust::reach::cell_faces(&cell)).is_ok();
        let is_polygon = caught((), || rust::reach::cell_polygon(&cell)).is_ok();
        assert_eq!(has_faces, element_type.dimension() == Dimension::D3);
        assert_eq!(is_polygon, element_type.dimension() == Dimension::D2);
    }
    assert_eq!(ElementType::of_number(19), None);
}

/// The words with which `work` panics.
fn panic_of<R>(work: impl FnOnce() -> R) -> String {
    let Err(panic) = quietly(work) else {
        panic!("no panic");
    };
    let fixed = panic.downcast_ref::<&str>().map(|words| words.to_string());
    fixed.unwrap_or_else(|| *panic.downcast::<String>().unwrap())
}

/// A mesh of one cell in space, cut by the Rust as it stands.
fn slice_of(number: u8, nodes: &[usize], origin: &[f64], normal: &[f64]) -> UMesh {
    let mut mesh = UMesh::new(rows(3, tet().coords).unwrap().to_shared());
    mesh.add_element(ElementType::of_number(number).unwrap(), nodes, None);
    rust::slice(&mesh.view(), origin, normal)
}

/// The inputs of docs/DIFFERENCES.md, 'Where the Rust panics': we refuse them with 1, 4, 5 and 6.
#[test]
fn the_rust_panics_where_we_refuse() {
    let four = [0, 1, 2, 3];
    let as_volume = |number| {
        let kind = ElementType::of_number(number).unwrap();
        let cell = Element::alone(kind, &four, rows(3, tet().coords).unwrap());
        panic_of(|| rust::reach::section_cell_by_plane(&cell, &[0.0; 3], &UP, &UP, &UP, 0.0))
    };
    assert_eq!(as_volume(8), "Cannot slice a QUAD4 cell as a 3D volume");
    assert_eq!(slice_of(8, &four, &[0.0; 3], &UP).elements().count(), 0);

    // the words are the stand-in's
    let no_row = panic_of(|| slice_of(12, &[0, 1, 2, 9], &[0.0; 3], &UP));
    assert_eq!(no_row, "row 9 of a table of 4");

    let short = panic_of(|| slice_of(12, &four, &[0.0; 2], &UP));
    assert!(
        short.contains("The slice origin must have the same dimension"),
        "{short}"
    );
    let short = panic_of(|| slice_of(12, &four, &[0.0; 3], &[1.0; 2]));
    assert!(
        short.contains("The slice normal must have the same dimension"),
        "{short}"
    );

    let zero = "The slice normal must not be zero";
    for normal in [
        [0.0; 3],
        [5e-324; 3],
        [f64::NAN; 3],
        [f64::INFINITY, 0.0, 0.0],
    ] {
        assert_eq!(panic_of(|| slice_of(12, &four, &[0.0; 3], &normal)), zero);
    }
    assert_eq!(
        panic_of(|| rust::reach::line_vectors(&[1e200, 0.0, 0.0])),
        zero
    );
}

#[test]
fn stops_come_in_rising_order() {
    let cut = |number, nodes, coords: &[f64], normal| {
        let cell = Cell {
            number,
            nodes,
            coords,
        };
        plane_cut(Build::Rust, cell, &[0.0; 3], &normal, 0.0).map(|_| ())
    };
    let rows = tet().coords;
    assert_eq!(cut(8, &[0, 1, 2], &[0.0], [0.0; 3]), Err(Stop::Type));
    assert_eq!(cut(12, &[0, 1, 9], &[0.0], [0.0; 3]), Err(Stop::Count));
    assert_eq!(cut(12, &[0, 1, 2, 9], &[0.0], [0.0; 3]), Err(Stop::Rows));
    assert_eq!(cut(12, &[0, 1, 2, 9], rows, [0.0; 3]), Err(Stop::Corner));
    assert_eq!(cut(12, &[0, 1, 2, 3], rows, [0.0; 3]), Err(Stop::Norm));
    // Mid-side nodes are never read, nor are those of a dropped face.
    assert_eq!(
        cut(13, &[0, 1, 2, 3, 99, 99, 99, 99, 99, MAX], rows, UP),
        Ok(())
    );
    assert_eq!(cut(18, &[77, 78, MAX, 0, 1, 2], rows, UP), Ok(()));
}

#[test]
fn a_first_nan_is_kept_and_a_later_one_never_taken() {
    // Points 1 and 2 coincide, so the step between them has no cosine.
    let points = [[-1.0, 0.0], [0.0, 0.0], [0.0, 0.0], [1.0, 0.0], [0.0, 1.0]];
    let choice = |build, second, third| {
        let edges = [[0, 1], [1, second], [1, third]];
        let used = [true, false, false];
        ask!(
            build,
            select_next_edge(1, 0, &[0, 1, 2], &edges, &used, &points)
        )
    };
    for build in BUILDS {
        assert_eq!(choice(build, 2, 3), Some(1));
        assert_eq!(choice(build, 3, 2), Some(1));
        assert_eq!(choice(build, 4, 3), Some(2));
        assert_eq!(choice(build, 3, 4), Some(1));
    }
}

#[test]
fn equal_arccosines_of_unequal_cosines_choose_otherwise() {
    let segments = [
        [[-1.0, 0.0], [0.0, 0.0]],
        [[0.0, 0.0], [2.0, 5.0]],
        [[2.0, 5.0], [-1.0, 0.0]],
        [[0.0, 0.0], [6.0, -15.0]],
        [[6.0, -15.0], [-1.0, -1.0]],
        [[-1.0, -1.0], [0.0, 0.0]],
    ];
    let loops = |build| stitch(build, &segments, 0.0).loops;
    assert_eq!(loops(Build::ByCosine), [[2, 1, 4, 3, 1, 0]]);
    assert_eq!(loops(Build::ByRules), loops(Build::ByCosine));
    // The C library's arccosine decides this one.
    assert_eq!(loops(Build::Rust), [[0, 1, 2], [4, 3, 1]]);
}

#[test]
fn a_sum_from_minus_zero_shows_in_a_zeros_sign() {
    let cut = |build| plane_cut(build, tet(), &[0.0; 3], &[5.0, -3.0, 2.0], 0.0).unwrap();
    let (rust, rules) = (cut(Build::Rust), cut(Build::ByRules));
    assert_eq!(rust, rules);
    assert_eq!(rust.points[2][1].to_bits(), (-0.0f64).to_bits());
    assert_eq!(rules.points[2][1].to_bits(), 0.0f64.to_bits());
}

/// Segments between points on a grid, so many of them, from a seed.
fn on_a_grid(seed: &mut u64, many: usize) -> Vec<Segment<2>> {
    let mut next = || {
        *seed = seed
            .wrapping_mul(6364136223846793005)
            .wrapping_add(1442695040888963407);
        ((*seed >> 40) % 9) as f64 / 4.0
    };
    let mut end = || [next(), next()];
    (0..many).map(|_| [end(), end()]).collect()
}

/// In the usual way the other walk gives the Rust's points and loops. In the strict way it gives those in which no point
/// stands twice; points, open edges and all listed ones stay, and pinched edges were in loops or flat.
#[test]
fn the_other_walk_gives_the_rusts_loops() {
    let mut seed = 7u64;
    let mut pinched = 0;
    for many in (0..60).cycle().take(1200) {
        let segments = on_a_grid(&mut seed, many);
        for tol in [0.0, 0.25, 0.3, 1.0] {
            let walked = Walked::new(&segments, tol);
            let mut rules = stitch(Build::ByRules, &segments, tol);
            assert_eq!(walked.section(false), rules);
            rules.loops.retain(|nodes| !repeats(nodes));
            assert_eq!(walked.section(true), rules);
            let [usual, strict] = [false, true].map(|way| walked.edges(way));
            let returned: usize = rules.loops.iter().map(Vec::len).sum();
            assert_eq!((strict.in_loops, usual.pinched), (returned, 0));
            let moved = usual.in_loops + usual.flat - strict.in_loops - strict.flat;
            assert_eq!(moved, strict.pinched);
            let same = |edges: Edges| (edges.listed, edges.open);
            assert_eq!(same(usual), same(strict));
            pinched += usize::from(strict.pinched > 0);
        }
    }
    assert!(pinched > 200, "{pinched}");
}

#[test]
fn welding_again_gives_the_same_points() {
    let mut seed = 7u64;
    for tol in [0.0, 0.25, 0.3, 1.0] {
        let segments = on_a_grid(&mut seed, 60);
        assert_eq!(
            stitch(Build::Rust, &segments, tol).points,
            listed(&segments, tol).0
        );
    }
}

#[test]
fn a_square_is_one_product() {
    let mut seed = 3u64;
    let mut next = || {
        seed = seed
            .wrapping_mul(6364136223846793005)
            .wrapping_add(1442695040888963407);
        f64::from_bits((seed >> 12) | (1020 + (seed >> 60)) << 52)
    };
    for _ in 0..10_000 {
        let (a, b) = ([next(), next()], [next(), next()]);
        let (x, y) = (a[0] - b[0], a[1] - b[1]);
        let products = x * x + y * y;
        assert_eq!(rust::reach::dist2(&a, &b).to_bits(), products.to_bits());
    }
}

#[test]
fn the_line_cut_is_what_a_mesh_of_one_cell_gives() {
    let coords = brick(0.0);
    let (origin, along) = ([0.5, 0.25, 0.75], [2.0, 0.0, 0.0]);
    let tol = tolerance(3, &coords).unwrap();
    let cut = line_cut(Build::Rust, hex(&coords), &origin, &along, tol).unwrap();
    let cells = vec![(14, EIGHT.to_vec())];
    let mesh = Mesh {
        columns: 3,
        coords,
        cells,
    };
    let whole = slice_line(Build::Rust, &mesh, &origin, &along).unwrap();
    assert_eq!(whole.cells, [(1, vec![0, 1])]);
    assert_eq!(whole.coords, cut.concat().concat());
    let xs = [cut[0][0][0], cut[0][1][0]];
    assert_eq!((xs[0].min(xs[1]), xs[0].max(xs[1])), (0.0, 1.0));
}

/// `line_cut` computes the crossings that the whole function does: six where the plane that holds the line cuts the
/// sides of the wedge, two where the line cuts the triangle between.
#[test]
fn the_line_cut_counts_what_a_mesh_of_one_cell_does() {
    let s = f64::from_bits(1);
    let end = |x: f64, y: f64| [[x, y, s], [x + 4.0, y, s], [x + 2.0, y, -s]];
    let coords = [end(0.0, -s), end(2.0, s)].concat().concat();
    let nodes = [0, 1, 2, 3, 4, 5];
    let cell = Cell {
        number: 16,
        nodes: &nodes,
        coords: &coords,
    };
    let along = [1.0, 0.0, 0.0];
    let (one, count) =
        defaulted(|| line_cut(Build::Counted, cell, &[0.0; 3], &along, 0.0).unwrap());
    assert_eq!((one.len(), count), (1, 8));
    // the whole function takes the mesh's own tolerance, which is larger; NaN still gives some
    let coords = [
        [0.0, -1.0, f64::NAN],
        [4.0, -1.0, 0.5],
        [2.0, -1.0, -0.5],
        [0.0, 1.0, 1.0],
        [4.0, 1.0, 0.5],
        [2.0, 1.0, -0.5],
    ]
    .concat();
    let cell = Cell {
        number: 16,
        nodes: &nodes,
        coords: &coords,
    };
    let tol = tolerance(3, &coords).unwrap();
    let one = || line_cut(Build::Counted, cell, &[0.0; 3], &along, tol);
    let mesh = Mesh {
        columns: 3,
        coords: coords.clone(),
        cells: vec![(16, nodes.to_vec())],
    };
    let whole = || slice_line(Build::Counted, &mesh, &[0.0; 3], &along);
    let count = defaulted(one).1;
    assert!(count > 0);
    assert_eq!(count, defaulted(whole).1);
}

#[test]
fn a_mesh_of_two_bricks_shares_nodes_and_drops_the_double_face() {
    let mut coords = brick(0.0);
    coords.extend(brick(1.0));
    let second = EIGHT.map(|node| node + 8).to_vec();
    let cells = vec![(14, EIGHT.to_vec()), (14, second)];
    let mesh = Mesh {
        columns: 3,
        coords,
        cells,
    };
    let across = slice(Build::Rust, &mesh, &[0.0, 0.0, 0.5], &UP).unwrap();
    assert_eq!(across.coords.len(), 6 * 3);
    assert_eq!(across.cells.len(), 2);
    let between = slice(Build::Rust, &mesh, &[1.0, 0.0, 0.0], &[1.0, 0.0, 0.0]).unwrap();
    assert_eq!(between.coords.len(), 4 * 3);
    assert_eq!(between.cells.len(), 1);
    assert_eq!(slice(Build::Rust, &mesh, &[0.0; 2], &UP), None);
}
