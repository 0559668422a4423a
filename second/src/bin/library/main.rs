//! Compares the library, through its C interface, with second on everything that document 01 says.

mod calls;
mod filling;
mod fractions;
mod guards;
mod packs;
mod refusals;
mod shapes;
mod stack;
mod stripes;

use second::compare::report::Report;
use second::compare::stripes::stripes_to_compare;
use std::process::ExitCode;

/// The seed of the first test. Each other test adds its place in the list.
const SEED: u64 = 160_508_630;

/// How many tests there are.
const TESTS: usize = 26;

fn main() -> ExitCode {
    println!("the library against second, seed {SEED}");
    let mut report = Report::default();
    let stripes = &stripes_to_compare(&mut report, SEED)[..];
    report.test("bench cases", stripes::bench_cases);
    report.test("shapes and sizes", shapes::shapes_and_sizes);
    report.test("shape numbers", shapes::shape_numbers);
    report.test("lay and read back", || stripes::lay_and_read_back(stripes, SEED + 1));
    report.test("fill parity", || stripes::fill_parity(stripes, SEED + 2));
    report.test("test", || stripes::test(stripes, SEED + 3));
    report.test("fill, every lost set", || filling::every_lost_set(stripes, SEED + 4));
    report.test("fill, r lost, by elimination", || filling::free_survivors(stripes, SEED + 5));
    report.test("fill, r lost, equations evaluated", || filling::free_survivors_tested(stripes, SEED + 6));
    report.test("fill, one wrong byte", || filling::one_wrong_byte(stripes, SEED + 7));
    report.test("fill, fewer than r lost, by elimination", || filling::fewer_lost_by_elimination(stripes, SEED + 8));
    report.test("fill, none lost", || filling::empty_lost_set(stripes, SEED + 9));
    report.test("cut", || fractions::cut(stripes, SEED + 10));
    report.test("rebuild", || fractions::rebuild(stripes, SEED + 11));
    report.test("refusals", || refusals::every_entry(stripes));
    report.test("null pointers", || refusals::null_pointers(stripes));
    report.test("stack", || stack::small_stack(stripes));
    report.test("packs, every lost set", || packs::every_lost_set(stripes, SEED + 12));
    report.test("packs, by elimination", || packs::by_elimination(stripes, SEED + 13));
    report.test("packs, damages counted", || packs::damages_are_all_there(stripes));
    report.test("packs, damaged singly", || packs::damaged_singly(stripes, SEED + 14));
    report.test("packs, damaged in pairs", || packs::damaged_in_pairs(stripes, SEED + 15));
    report.test("packs, stripe buffer", || packs::buffer_lengths(stripes));
    report.test("packs, cut off and over-long", || packs::truncated_and_over_long(stripes, SEED + 16));
    report.test("packs, random changes", || packs::random_changes(stripes, SEED + 17));
    report.end(TESTS)
}
