//! Recorded answers, as words that crates/replay reads: it calls the entries and compares, without any Rust.
//!
//! The file is little-endian u64 words. The first is the number of groups. A group is its name in 64 bytes, the
//! number of its records, and the records. A list is its length and its elements. A record is:
//!
//! | words | what |
//! |---|---|
//! | 1 | the entry: 1 plane, 2 line in space, 3 plane cell by normal, 4 by direction, 5 stitching, 6 tolerance in space, 7 tolerance in the plane, 8 square root, 9 gathering |
//! | 1 | scaled, of entries 1, 3 and 9, from 0 to 255: 0 is a normal as it is given, anything else a scaled one |
//! | 1 | strict, of entries 1 and 5, from 0 to 255: 0 is the usual way, anything else the strict one |
//! | 1 | the type number |
//! | 1 | the tolerance, in bits; for entry 8 the number whose root is taken |
//! | four lists | nodes; coordinates, for entry 5 the numbers of the segments; origin; normal or direction |
//! | 3 | the lengths of the buffers for numbers, nodes and ends |
//! | 1 | expected of entries 6, 7 and 8: the tolerance or the root, in bits |
//! | a list of 11 | expected: refusal, points (or segments), nodes, loops, edges listed, in loops, pinched, flat and open, crossings in the middle by default, and comparisons of points |
//! | three lists | expected in the buffers, which keep the rest: numbers in bits (2 a point, 6 a segment in space, 4 in the plane and gathered), nodes, ends |
//!
//! Where an entry has no such argument or answer the word is 0 or the list is empty. Every NaN is
//! 7ff8000000000000. In the numbers expected in a buffer -0.0 is written as 0.0, since the Rust's zeros have another
//! sign at times (docs/DIFFERENCES.md); the replay writes its own answer's zeros so too. Inputs and roots have
//! zeros of both signs.

use crate::answers::Answer;
use crate::entries::{Case, Entry, Told};

/// The bytes of a group's name.
const NAME: usize = 64;

/// The number of the square root among the entries.
const ROOT: u64 = 8;

/// Records with a name.
pub struct Group {
    pub name: String,
    pub records: Vec<Vec<u64>>,
}

/// A number as a word.
pub fn bits(x: f64) -> u64 {
    if x.is_nan() {
        0x7ff8 << 48
    } else {
        x.to_bits()
    }
}

/// A number as a word of what is expected in a buffer.
fn expected_bits(x: f64) -> u64 {
    // -0.0 + 0.0 is 0.0; every other number stays as it is
    bits(x + 0.0)
}

/// The record of a case and its answer.
pub fn words(case: &Case, answer: &Answer) -> Vec<u64> {
    let mut words = vec![
        case.entry as u64,
        u64::from(case.scaled),
        u64::from(case.strict),
        u64::from(case.number),
        bits(case.tol),
    ];
    put_list(&mut words, case.conn.iter().copied());
    let coords = match case.entry {
        Entry::Stitch => &case.segments,
        _ => &case.coords,
    };
    for list in [coords, &case.origin, &case.vector] {
        put_list(&mut words, list.iter().copied().map(bits));
    }
    words.extend(case.lent.map(|length| length as u64));
    words.push(bits(answer.told.tolerance));
    put_list(&mut words, counts(&answer.told).into_iter().map(u64::from));
    put_list(
        &mut words,
        answer.numbers.iter().copied().map(expected_bits),
    );
    for list in [&answer.nodes, &answer.ends] {
        put_list(&mut words, list.iter().copied().map(u64::from));
    }
    words
}

/// The record of a square root.
pub fn root_words(x: f64, root: f64) -> Vec<u64> {
    let case = Case {
        tol: x,
        ..Case::new(Entry::Plane)
    };
    let told = Told {
        tolerance: root,
        ..Told::default()
    };
    let answer = Answer {
        told,
        ..Answer::default()
    };
    let mut words = words(&case, &answer);
    words[0] = ROOT;
    words
}

fn put_list(words: &mut Vec<u64>, list: impl ExactSizeIterator<Item = u64>) {
    words.push(list.len() as u64);
    words.extend(list);
}

fn counts(told: &Told) -> [u32; 11] {
    [
        told.refusal,
        told.points,
        told.nodes,
        told.loops,
        told.listed,
        told.in_loops,
        told.pinched,
        told.flat,
        told.open,
        told.defaulted,
        told.comparisons,
    ]
}

/// All groups as the bytes of a file. Names have at most 64 bytes.
pub fn file(groups: &[Group]) -> Vec<u8> {
    let mut bytes = (groups.len() as u64).to_le_bytes().to_vec();
    for group in groups {
        assert!(group.name.len() <= NAME, "{}", group.name);
        bytes.extend(format!("{:<NAME$}", group.name).into_bytes());
        bytes.extend((group.records.len() as u64).to_le_bytes());
        let words = group.records.iter().flatten().copied();
        bytes.extend(words.flat_map(u64::to_le_bytes));
    }
    bytes
}

#[cfg(test)]
mod tests {
    use super::*;

    #[test]
    fn a_file_is_names_numbers_and_records() {
        let record = root_words(4.0, -0.0);
        let group = Group {
            name: "roots".into(),
            records: vec![record.clone(), record.clone()],
        };
        let bytes = file(&[group]);
        assert_eq!(bytes[8..8 + NAME], *format!("{:<64}", "roots").as_bytes());
        let words: Vec<u64> = bytes
            .chunks_exact(8)
            .map(|word| u64::from_le_bytes(word.try_into().unwrap()))
            .collect();
        let expected = [&[2][..], &record, &record].concat();
        assert_eq!(words[0], 1);
        assert_eq!(words[1 + NAME / 8..], expected);
        let told = [11, 0, 0, 0, 0, 0, 0, 0, 0, 0, 0, 0];
        let root = [(-0.0f64).to_bits()];
        let given = [8, 0, 0, 0, 4.0f64.to_bits(), 0, 0, 0, 0, 0, 0, 0];
        assert_eq!(record, [&given[..], &root, &told, &[0, 0, 0]].concat());
    }

    #[test]
    fn the_counts_stand_in_their_order() {
        let told = Told {
            refusal: 1,
            points: 2,
            nodes: 3,
            loops: 4,
            listed: 5,
            in_loops: 6,
            pinched: 7,
            flat: 8,
            open: 9,
            defaulted: 10,
            comparisons: 11,
            tolerance: 0.5,
        };
        let answer = Answer {
            told,
            ..Answer::default()
        };
        let words = words(&Case::new(Entry::Plane), &answer);
        let expected = [
            0.5f64.to_bits(),
            11,
            1,
            2,
            3,
            4,
            5,
            6,
            7,
            8,
            9,
            10,
            11,
            0,
            0,
            0,
        ];
        assert!(words.ends_with(&expected), "{words:?}");
    }

    #[test]
    fn the_ways_stand_between_the_entry_and_the_type() {
        let case = Case {
            scaled: 254,
            strict: 255,
            number: 14,
            tol: 0.5,
            ..Case::new(Entry::Plane)
        };
        let words = words(&case, &Answer::default());
        assert_eq!(words[..5], [1, 254, 255, 14, 0.5f64.to_bits()]);
    }

    #[test]
    fn zeros_and_nan_have_one_pattern_in_what_is_expected() {
        assert_eq!(expected_bits(-0.0), 0);
        assert_eq!(expected_bits(-f64::NAN), 0x7ff8 << 48);
        assert_eq!(expected_bits(-5e-324), (-5e-324f64).to_bits());
        assert_eq!(bits(-0.0), 1 << 63);
    }
}
