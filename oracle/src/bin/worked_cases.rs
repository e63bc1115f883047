//! What the Rust gives for the nineteen cases that docs/RULES.md works by hand; and another walk in the strict way, and the Rust by
//! the plain model's normal in the scaled way, neither of which the Rust has.

use oracle::counts::{counts, listed};
use oracle::scaling::scaled;
use oracle::walks::Walked;
use oracle::*;

/// HEX8 on the unit cube.
const BRICK: [f64; 24] = [
    0.0, 0.0, 0.0, 1.0, 0.0, 0.0, 1.0, 1.0, 0.0, 0.0, 1.0, 0.0, //
    0.0, 0.0, 1.0, 1.0, 0.0, 1.0, 1.0, 1.0, 1.0, 0.0, 1.0, 1.0,
];
const TET: [f64; 12] = [0.0, 0.0, 0.0, 1.0, 0.0, 0.0, 0.0, 1.0, 0.0, 0.0, 0.0, 1.0];
const UP: [f64; 3] = [0.0, 0.0, 1.0];
const MAX: usize = usize::MAX;

fn main() {
    println!("What slice.rs gives for the worked cases of docs/RULES.md.");
    println!("'listed' is derived here from the segments, 'in loops' from the loops returned.");
    println!("The Rust's answer does not tell flat edges from open ones: listed less in loops");
    println!("is both together. Stitched answers are the same in all four builds, unless said;");
    println!("three of them count the comparisons of points while welding, and count alike.");
    println!(
        "The Rust has one way, the usual one. What is told of the strict way is that of another"
    );
    println!("walk, written here from the rules, which gives the Rust's loops in the usual way.");
    println!(
        "Nor does the Rust scale a normal. What is told of the scaled way is the Rust's answer to"
    );
    println!(
        "the normal that a plain model, written here from the rules in whole numbers, has scaled."
    );
    faces_of_phed();
    brick();
    tetrahedron();
    stitching();
    bow_tie();
    leaves();
    odd_normals();
    limits();
    gathered();
    crossings_by_default();
    comparisons_of_points();
    touching_triangles();
    scaled_normals();
}

fn faces_of_phed() {
    heading("1. * PHED 0 1 2 MAX 3 4 MAX 5 6 7: faces at positions 0 1 2 and 7 8 9.");
    let found = faces(18, &[0, 1, 2, MAX, 3, 4, MAX, 5, 6, 7]).unwrap();
    for face in &found {
        println!("   face at positions {}", words(face));
    }
    verdict(found == [[0, 1, 2], [7, 8, 9]]);
}

fn brick() {
    heading("2. * Brick, origin (0,0,0.5), normal (0,0,1): points (0,0) (1,0) (1,1) (0,1), loop 0 1 2 3, counts 4 4 0 0.");
    let square = vec![[0.0, 0.0], [1.0, 0.0], [1.0, 1.0], [0.0, 1.0]];
    let (half, edges) = cut_at(hex(), 0.5);
    verdict(half.points == square && half.loops == [[0, 1, 2, 3]] && edges == [4, 4]);

    heading("3. Brick at z = 0: the same square, from the side faces. At z = 2: none.");
    println!("   z = 0");
    let (base, _) = cut_at(hex(), 0.0);
    println!("   z = 2");
    let (above, _) = cut_at(hex(), 2.0);
    let same_square = base.loops.len() == 1 && ring(&base, 0) == ring(&half, 0);
    verdict(same_square && above.loops.is_empty());
}

fn tetrahedron() {
    heading("4. * TET4 (0,0,0) (1,0,0) (0,1,0) (0,0,1) at z = 1: none. At z = 0.25: one triangle, area 0.28125.");
    let tet = Cell {
        number: 12,
        nodes: &[0, 1, 2, 3],
        coords: &TET,
    };
    println!("   z = 1");
    let (top, _) = cut_at(tet, 1.0);
    println!("   z = 0.25");
    let (low, _) = cut_at(tet, 0.25);
    let triangle = low.loops.len() == 1 && low.loops[0].len() == 3;
    let right = triangle && area(&low.loops[0], &low.points) == 0.28125;
    verdict(top.loops.is_empty() && right);
}

fn stitching() {
    heading("5. * No segments: counts 0 0 0 0.");
    let none = stitched(&[], 0.0);
    verdict(none.0.points.is_empty() && none.1 == [0, 0]);

    heading("6. * (0,0)-(0,1), (0,1)-(1,0), (1,0)-(0,0): loop 2 1 0.");
    let triangle = chain(&[[0, 0], [0, 1], [1, 0], [0, 0]]);
    let six = stitched(&triangle, 0.0);
    verdict(six.0.loops == [[2, 1, 0]]);

    heading("7. * The first two of case 6: counts 2 0 0 2.");
    let seven = stitched(&triangle[..2], 0.0);
    verdict(seven.0.loops.is_empty() && seven.1 == [2, 0]);

    heading("8. * Case 6 with tol NaN: six points, counts 3 0 0 3.");
    let eight = stitched(&triangle, f64::NAN);
    verdict(eight.0.points.len() == 6 && eight.1 == [3, 0]);

    heading("9. * (0,0)-(1,0), (1,0)-(2,0), (2,0)-(0,0): counts 3 0 3 0.");
    let nine = stitched(&chain(&[[0, 0], [1, 0], [2, 0], [0, 0]]), 0.0);
    verdict(nine.0.loops.is_empty() && nine.1 == [3, 0]);
}

fn bow_tie() {
    heading("10. * Bow-tie (-2,1)-(0,0)-(2,1)-(2,-1)-(0,0)-(-2,-1)-(-2,1): one walk 0 1 3 2 1 4, area 0, counts 6 0 6 0. In the strict way 6 0 6 0 0, and the same points.");
    let tie = chain(&[[-2, 1], [0, 0], [2, 1], [2, -1], [0, 0], [-2, -1], [-2, 1]]);
    let ten = stitched(&tie, 0.0);
    // A flat walk is not returned; the junction and the area can still be asked for.
    let (points, edges) = listed(&tie, 0.0);
    let edges: Vec<[usize; 2]> = edges.iter().map(|&(a, b)| [a, b]).collect();
    let used: Vec<bool> = edges.iter().map(|edge| *edge == [0, 1]).collect();
    let at_one: Vec<usize> = (0..edges.len())
        .filter(|&e| edges[e].contains(&1))
        .collect();
    let taken = rust::reach::select_next_edge(1, 0, &at_one, &edges, &used, &points).unwrap();
    println!(
        "   coming from 0, the junction at 1 takes edge {}",
        words(&edges[taken])
    );
    let flat = area(&[0, 1, 3, 2, 1, 4], &points);
    println!("   area of the walk 0 1 3 2 1 4: {flat:?}");
    let usual = ten.0.loops.is_empty() && ten.1 == [6, 0];
    let [usually, strictly] = [false, true].map(|way| counted(&tie, way, 0.0));
    let both = usually == [6, 0, 0, 6, 0] && strictly == [6, 0, 6, 0, 0];
    verdict(usual && both && edges[taken] == [1, 3] && flat == 0.0);
}

fn leaves() {
    heading("11. * Tolerance of one row (3,4,0): 2^-44.");
    let tol = tolerance(3, &[3.0, 4.0, 0.0]).unwrap();
    println!("   {tol:?} = {}", bits(tol));
    verdict(tol == 2f64.powi(-44));

    heading("12. * Roots: 4 gives 2; 2^-1074 gives 2^-537.");
    let (two, least) = (4f64.sqrt(), f64::from_bits(1).sqrt());
    println!("   f64::sqrt of 4: {two:?}");
    println!("   f64::sqrt of 2^-1074: {least:?} = {}", bits(least));
    verdict(two == 2.0 && least == f64::from_bits((1023 - 537) << 52));
}

fn odd_normals() {
    heading("13. Normal (1e200,0,0): plane cut of the brick, none; as a line direction, 6. Normal (0,0,0): 6. Infinity first: plane cut 6; plane cell by normal, no segments.");
    let origin = [0.0, 0.0, 0.5];
    let square = Cell {
        number: 8,
        nodes: &[0, 1, 2, 3],
        coords: &[0.0, 0.0, 1.0, 0.0, 1.0, 1.0, 0.0, 1.0],
    };
    let plane = |normal: [f64; 3]| {
        let section = plane_cut(Build::Rust, hex(), &origin, &normal, 0.0)?;
        Ok(section.points.len() + section.loops.len())
    };
    let line = |direction: [f64; 3]| {
        let segments = line_cut(Build::Rust, hex(), &origin, &direction, 0.0)?;
        Ok(segments.len())
    };
    let flat = |normal: [f64; 2]| {
        let segments = plane_cell_by_normal(Build::Rust, square, &[0.5; 2], &normal, 0.0)?;
        Ok(segments.len())
    };
    let right = [
        told(
            "(1e200,0,0), plane cut of the brick",
            plane([1e200, 0.0, 0.0]),
        ) == Ok(0),
        told("(1e200,0,0), line direction", line([1e200, 0.0, 0.0])) == Err(Stop::Norm),
        told("(0,0,0), plane cut", plane([0.0; 3])) == Err(Stop::Norm),
        told("(inf,0,0), plane cut", plane([f64::INFINITY, 0.0, 0.0])) == Err(Stop::Norm),
        told(
            "(inf,0), QUAD4 on the unit square by normal",
            flat([f64::INFINITY, 0.0]),
        ) == Ok(0),
    ];
    verdict(right == [true; 5]);
}

/// Prints how much was found, or that the Rust panics, and passes it on.
fn told(what: &str, found: Result<usize, Stop>) -> Result<usize, Stop> {
    match found {
        Ok(0) => println!("   {what}: none"),
        Ok(count) => println!("   {what}: {count} points, loops or segments"),
        Err(stop) => println!("   {what}: panics, the rules' {}", stop as u8),
    }
    found
}

fn limits() {
    heading("14. 384 segments accepted, 385 gives 8. PGON of 256 accepted, 257 gives 2.");
    for count in [384, 385] {
        let corners: Vec<[i32; 2]> = (0..count).chain([0]).map(|i| [i, i * i]).collect();
        let segments = chain(&corners);
        let found = stitch(Build::Rust, &segments, 0.0);
        let nodes: Vec<usize> = found.loops.iter().map(Vec::len).collect();
        println!(
            "   ring of {count} segments: {} points, loops of {}",
            found.points.len(),
            words(&nodes)
        );
    }
    for count in [256, 257] {
        let coords: Vec<f64> = (0..count)
            .flat_map(|i| [f64::from(i), f64::from(i * i)])
            .collect();
        let nodes: Vec<usize> = (0..coords.len() / 2).collect();
        let cell = Cell {
            number: 11,
            nodes: &nodes,
            coords: &coords,
        };
        let found = plane_cell_by_normal(Build::Rust, cell, &[10.5, 0.0], &[1.0, 0.0], 0.0);
        println!(
            "   PGON of {count}, corners (i,i*i), at x = 10.5: {}",
            pairs(&found.unwrap().concat())
        );
    }
    println!("   no counterpart: the Rust has neither limit and takes all four");
}

fn gathered() {
    heading("15. * Brick at z = 0.5, gathered: (0,0)-(1,0), (1,1)-(0,1), (1,0)-(1,1), (0,1)-(0,0), one on each face from the third on.");
    let sides = [
        vec![],
        vec![],
        vec![[[0.0, 0.0], [1.0, 0.0]]],
        vec![[[1.0, 1.0], [0.0, 1.0]]],
        vec![[[1.0, 0.0], [1.0, 1.0]]],
        vec![[[0.0, 1.0], [0.0, 0.0]]],
    ];
    let gather =
        |cell| BUILDS.map(|build| plane_segments(build, cell, &[0.0, 0.0, 0.5], &UP, 0.0).unwrap());
    let mut agrees = gather(hex()) == [(); 4].map(|()| sides.concat());
    for (face, side) in faces(14, hex().nodes).unwrap().iter().zip(&sides) {
        let alone = gather(Cell {
            number: 18,
            nodes: face,
            coords: &BRICK,
        });
        println!("   face {}: {}", words(face), pairs(&alone[0].concat()));
        agrees &= alone.iter().all(|segments| segments == side);
    }
    verdict(agrees);
}

fn hex() -> Cell<'static> {
    Cell {
        number: 14,
        nodes: &[0, 1, 2, 3, 4, 5, 6, 7],
        coords: &BRICK,
    }
}

/// Cuts at this height and prints the section.
fn cut_at(cell: Cell<'_>, height: f64) -> (Section, [usize; 2]) {
    let origin = [0.0, 0.0, height];
    let segments = plane_segments(Build::Rust, cell, &origin, &UP, 0.0).unwrap();
    for build in BUILDS {
        let cut = comparisons(|| plane_cut(build, cell, &origin, &UP, 0.0).unwrap());
        assert_eq!(cut, comparisons(|| stitch(build, &segments, 0.0)));
    }
    stitched(&segments, 0.0)
}

/// Stitches and prints the section with its counts, listed and in loops, and the comparisons of points.
fn stitched(segments: &[Segment<2>], tol: f64) -> (Section, [usize; 2]) {
    let stitched = |build| comparisons(|| stitch(build, segments, tol));
    let (found, compared) = stitched(Build::Counted);
    assert_eq!(found, stitch(Build::Rust, segments, tol));
    for build in [Build::ByCosine, Build::ByRules] {
        assert_eq!(stitched(build), (found.clone(), compared));
    }
    println!("   points: {}", pairs(&found.points));
    for nodes in &found.loops {
        println!(
            "   loop {}, area {:?}",
            words(nodes),
            area(nodes, &found.points)
        );
    }
    if found.loops.is_empty() {
        println!("   no loops");
    }
    let told = counts(segments, tol, &found);
    let rest = told.flat_or_open();
    println!(
        "   listed {}, in loops {}, flat or open {rest}; comparisons of points {compared}",
        told.listed, told.in_loops
    );
    in_the_strict_way(segments, tol, &found);
    (found, [told.listed, told.in_loops])
}

/// Prints the loops and counts of the other walk in the strict way; in the usual way its loops are those found.
fn in_the_strict_way(segments: &[Segment<2>], tol: f64, found: &Section) {
    let walked = Walked::new(segments, tol);
    assert_eq!(walked.section(false), *found);
    let strict = walked.section(true).loops;
    let told = if strict.is_empty() {
        "no loops".into()
    } else if strict == found.loops {
        "the same loops".into()
    } else {
        let loops: Vec<String> = strict.iter().map(|nodes| words(nodes)).collect();
        format!("loop {}", loops.join(", loop "))
    };
    let [listed, in_loops, pinched, flat, open] = counted(segments, true, tol);
    println!(
        "   the strict way: {told}; listed {listed}, in loops {in_loops}, pinched {pinched}, flat {flat}, open {open}"
    );
}

/// The counts of the other walk: listed, in loops, pinched, flat, open.
fn counted(segments: &[Segment<2>], strict: bool, tol: f64) -> [usize; 5] {
    let edges = Walked::new(segments, tol).edges(strict);
    [
        edges.listed,
        edges.in_loops,
        edges.pinched,
        edges.flat,
        edges.open,
    ]
}

/// The segments from each corner to the next.
fn chain(corners: &[[i32; 2]]) -> Vec<Segment<2>> {
    let sides = corners.windows(2).map(|side| [side[0], side[1]]);
    sides.map(|side| side.map(|p| p.map(f64::from))).collect()
}

/// A loop's points in order, from the least on, so that numbering does not matter.
fn ring(section: &Section, which: usize) -> Vec<[f64; 2]> {
    let nodes = &section.loops[which];
    let mut points: Vec<[f64; 2]> = nodes.iter().map(|&n| section.points[n]).collect();
    let least = (0..points.len()).min_by(|&a, &b| points[a].partial_cmp(&points[b]).unwrap());
    points.rotate_left(least.unwrap());
    points
}

fn crossings_by_default() {
    heading(
        "16. * Triangle (0,a) (1,a) (2,b) on the line y = 0: crossings in the middle by default.",
    );
    let (tiny, least) = (f64::from_bits(1), f64::MIN_POSITIVE);
    let cases = [
        ("2^-1074, -2^-1074", tiny, -tiny, 0.0, 2),
        ("2^-1023, -2^-1023", least / 2.0, -least / 2.0, 0.0, 2),
        ("2^-1022, -2^-1074", least, -tiny, 0.0, 0),
        ("1, NaN", 1.0, f64::NAN, 0.0, 2),
        (
            "infinity, -infinity",
            f64::INFINITY,
            f64::NEG_INFINITY,
            0.0,
            0,
        ),
        ("1, NaN, tolerance -1", 1.0, f64::NAN, -1.0, 2),
        ("2^-1074, -2^-1074, tolerance NaN", tiny, -tiny, f64::NAN, 0),
    ];
    let mut agrees = true;
    for (name, a, b, tol, right) in cases {
        let polygon = [[0.0, a], [1.0, a], [2.0, b]];
        let cut = || counted::reach::plane_section_segments(&polygon, &[0.0; 2], &[0.0, 1.0], tol);
        let (_, found) = defaulted(cut);
        println!("   {name}: {found}");
        agrees &= found == right;
    }
    verdict(agrees);
}

fn comparisons_of_points() {
    heading("17. * Comparisons of points: case 6, 9; with the tolerance NaN 15, with infinity 5. (0,0)-(0,0): 1. With the tolerance 2, (0,0)-(3,0) and (2,0)-(0,4): 4, since (2,0) becomes (0,0), the first that is near. The plane cut of case 2: 16.");
    let triangle = chain(&[[0, 0], [0, 1], [1, 0], [0, 0]]);
    let one_point = chain(&[[0, 0], [0, 0]]);
    let near_both = [chain(&[[0, 0], [3, 0]]), chain(&[[2, 0], [0, 4]])].concat();
    let mut agrees = true;
    for (name, segments, tol, right) in [
        ("case 6", &triangle, 0.0, 9),
        ("case 6, tolerance NaN", &triangle, f64::NAN, 15),
        ("case 6, tolerance infinity", &triangle, f64::INFINITY, 5),
        ("(0,0)-(0,0)", &one_point, 0.0, 1),
        ("(0,0)-(3,0), (2,0)-(0,4), tolerance 2", &near_both, 2.0, 4),
    ] {
        let (_, found) = comparisons(|| stitch(Build::Counted, segments, tol));
        println!("   {name}: {found}");
        agrees &= found == right;
    }
    let cut = || plane_cut(Build::Counted, hex(), &[0.0, 0.0, 0.5], &UP, 0.0);
    let (_, found) = comparisons(cut);
    println!("   case 2: {found}");
    verdict(agrees && found == 16);
}

fn touching_triangles() {
    heading("18. * Two triangles that share a corner, and one apart: (-4,2)-(0,0)-(2,1)-(2,-1)-(0,0)-(-4,-2)-(-4,2) and (9,0)-(10,0)-(9,1)-(9,0): walks 0 1 3 2 1 4, of area -6, and 5 6 7, loops 4 1 2 3 1 0 and 5 6 7, counts 9 9 0 0. In the strict way loop 5 6 7, counts 9 3 6 0 0, and the same points.");
    let sharing = chain(&[[-4, 2], [0, 0], [2, 1], [2, -1], [0, 0], [-4, -2], [-4, 2]]);
    let apart = chain(&[[9, 0], [10, 0], [9, 1], [9, 0]]);
    let segments = [sharing, apart].concat();
    let (usual, edges) = stitched(&segments, 0.0);
    let strict = Walked::new(&segments, 0.0).section(true);
    let walk = area(&[0, 1, 3, 2, 1, 4], &usual.points);
    println!("   area of the walk 0 1 3 2 1 4: {walk:?}");
    let apart = vec![5, 6, 7];
    let loops = usual.loops == [vec![4, 1, 2, 3, 1, 0], apart.clone()] && strict.loops == [apart];
    let counts = edges == [9, 9] && counted(&segments, true, 0.0) == [9, 3, 6, 0, 0];
    verdict(loops && counts && walk == -6.0 && strict.points == usual.points);
}

fn scaled_normals() {
    heading("19. In the scaled way, the brick at x = 0.5: by the normals (1,0,0), (1e200,0,0) and (2^-1074,0,0) points (0,0) (1,0) (1,1) (0,1), loop 0 1 2 3, counts 4 4 0 0. By (0,0,0), and by a normal with a component that is infinite or NaN: 6, of a cell in the plane too. The triangle (0,0) (2^1000,0) (0,1) by the line through (0,0) with the normal (2^-52,2^1023), which becomes (0,1): (0,0)-(2^1000,0). By the next number above 2^-52 it becomes (2^-1074,1): no segments.");
    let (tiny, infinity, nan) = (f64::from_bits(1), f64::INFINITY, f64::NAN);
    let mut agrees = true;
    let square = vec![[0.0, 0.0], [1.0, 0.0], [1.0, 1.0], [0.0, 1.0]];
    let origin = [0.5, 0.0, 0.0];
    for x in [1.0, 1e200, tiny] {
        let normal: [f64; 3] = become_scaled(&[x, 0.0, 0.0]).unwrap();
        let segments = plane_segments(Build::Rust, hex(), &origin, &normal, 0.0).unwrap();
        let cut = plane_cut(Build::Rust, hex(), &origin, &normal, 0.0).unwrap();
        let (found, edges) = stitched(&segments, 0.0);
        agrees &= found == cut && found.points == square;
        agrees &= found.loops == [[0, 1, 2, 3]] && edges == [4, 4];
    }
    let cut = |normal: [f64; 3]| {
        let normal = become_scaled(&normal)?;
        let section = plane_cut(Build::Rust, hex(), &origin, &normal, 0.0)?;
        Ok(section.points.len() + section.loops.len())
    };
    for normal in [[0.0; 3], [infinity, 0.0, 0.0], [1.0, nan, 0.0]] {
        agrees &= told("plane cut", cut(normal)) == Err(Stop::Norm);
    }
    let long = 2f64.powi(1000);
    let triangle = Cell {
        number: 5,
        nodes: &[0, 1, 2],
        coords: &[0.0, 0.0, long, 0.0, 0.0, 1.0],
    };
    let line = |normal: [f64; 2]| {
        let normal = become_scaled(&normal)?;
        plane_cell_by_normal(Build::Rust, triangle, &[0.0; 2], &normal, 0.0)
    };
    for normal in [[0.0; 2], [infinity, 0.0], [1.0, nan]] {
        let found = line(normal).map(|segments| segments.len());
        agrees &= told("plane cell by normal", found) == Err(Stop::Norm);
    }
    let half = 2f64.powi(-52);
    for (x, right) in [
        (half, vec![[[0.0, 0.0], [long, 0.0]]]),
        (half.next_up(), vec![]),
    ] {
        let found = line([x, 2f64.powi(1023)]).unwrap();
        println!("   plane cell by normal: {}", pairs(&found.concat()));
        agrees &= found == right;
    }
    verdict(agrees);
}

/// Prints what the model makes of a normal. One that it does not scale, since a component is not finite, the rules refuse with 6.
fn become_scaled<const D: usize>(normal: &[f64; D]) -> Result<[f64; D], Stop> {
    let found = scaled(normal);
    match &found {
        Some(scaled) => println!("   {normal:?} becomes {scaled:?}"),
        None => println!("   {normal:?} is not scaled"),
    }
    let array = |scaled: Vec<f64>| scaled.try_into().unwrap();
    found.map(array).ok_or(Stop::Norm)
}

fn heading(text: &str) {
    println!("\n{text}");
}

fn verdict(agrees: bool) {
    println!(
        "   {}",
        if agrees {
            "agrees"
        } else {
            "DIFFERS from docs/RULES.md"
        }
    );
}

fn words(numbers: &[usize]) -> String {
    let words: Vec<String> = numbers.iter().map(usize::to_string).collect();
    words.join(" ")
}

fn pairs(points: &[[f64; 2]]) -> String {
    let words: Vec<String> = points
        .iter()
        .map(|p| format!("({:?}, {:?})", p[0], p[1]))
        .collect();
    if words.is_empty() {
        return "none".into();
    }
    words.join(" ")
}

fn bits(x: f64) -> String {
    format!("{:#018x}", x.to_bits())
}
