//! Holds the scaled way of taking a normal against the plain model, which works in whole numbers: the scaled normal itself, in space and
//! in the plane, and the entries that take a normal. The number is that of normals of each width; each entry has a quarter of it in each
//! way. Refusals and what beyond an answer keeps its bits are held against the rules in `cells` and `gathering`.

use compare::entries::ours;
use compare::scaling::{compare, compare_entry, Scalings, ENTRIES, KINDS, PROVED};
use compare::{cases_asked, refused_by};
use std::process::ExitCode;
use std::time::Instant;

const FULL: u64 = 2_000_000;

fn main() -> ExitCode {
    let cases = cases_asked("scaling", FULL);
    let start = Instant::now();
    println!("scaled normals, with the bits of the plain model:");
    let in_plane = compare::<2>(cases, PROVED[0]);
    let in_space = compare::<3>(cases, PROVED[1]);
    let mut differing = 0;
    let mut complete = true;
    for (all, name) in [
        (in_plane, "normals in the plane"),
        (in_space, "normals in space"),
    ] {
        all.found.print(name, "are taken");
        print_kinds(&all);
        differing += all.found.differing;
        complete &= all.complete();
    }
    println!("entries in the scaled way beside the same by the model's scaled normal, as it is given, to the bit:");
    for (entry, ways, name) in ENTRIES {
        let all = compare_entry(entry, ways, cases / 4, ours);
        all.found.print(name, "give some");
        println!("           {}", refused_by(&all.refused));
        println!(
            "           {} refused since a component is not finite; {} answered otherwise by the normal as it is given; {} \
             answered whose squares neither overflow nor underflow, none of them otherwise",
            all.not_finite, all.changed, all.ordinary
        );
        differing += all.found.differing;
    }
    println!(
        "{:.1} seconds, {differing} differ",
        start.elapsed().as_secs_f64()
    );
    if !complete {
        println!("not every kind of normal occurred: ask for more cases");
    }
    ExitCode::from(u8::from(differing > 0 || !complete))
}

fn print_kinds(all: &Scalings) {
    let reached = all.exponents.iter().filter(|&&many| many > 0).count();
    let least = all.exponents.iter().min().unwrap_or(&0);
    println!(
        "           the greatest component has {reached} exponents, each at least {least} times"
    );
    for (name, many) in KINDS.iter().zip(all.kinds) {
        println!("           {many:>9} {name}");
    }
    println!("           not finite, by place: {:?}", all.places);
    println!(
        "           {} whose squares neither overflow nor underflow, their unit to the bit that of the normal as it is given",
        all.ordinary
    );
}
