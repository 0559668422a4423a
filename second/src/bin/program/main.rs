//! Compares the program, run as a child process, with second: `program PATH_OF_THE_PROGRAM FOLDER_OF_THE_CORPUS`.

mod child;
mod damaged;
mod packs;
mod stored;

use child::Program;
use second::compare::report::Report;
use second::compare::stripes::stripes_to_compare;
use std::path::PathBuf;
use std::process::ExitCode;

/// The seed of the first test. Each other test adds its place in the list.
const SEED: u64 = 4_233;

/// How many tests there are.
const TESTS: usize = 12;

fn main() -> ExitCode {
    let arguments: Vec<PathBuf> = std::env::args_os().skip(1).map(PathBuf::from).collect();
    let [path, folder] = &arguments[..] else {
        eprintln!("give the path of the program and the folder of the corpus");
        return ExitCode::FAILURE;
    };
    let program = &Program::new(path.clone());
    println!("the program against second, seed {SEED}");
    let mut report = Report::default();
    let stripes = &stripes_to_compare(&mut report, SEED)[..];
    report.test("as printed", || packs::as_printed(program));
    report.test("corpus", || stored::corpus_folder(program, folder));
    report.test("whole packs", || packs::whole(program, stripes, SEED + 1));
    report.test("by elimination", || packs::by_elimination(program, stripes, SEED + 2));
    report.test("in pieces", || packs::in_pieces(program, stripes));
    report.test("damaged singly", || damaged::singly(program, stripes, SEED + 3));
    report.test("damaged in pairs", || damaged::in_pairs(program, stripes, SEED + 4));
    report.test("cut off", || damaged::cut_off(program, stripes));
    report.test("over-long", || damaged::over_long(program, stripes, SEED + 5));
    report.test("random bytes", || damaged::random_bytes(program, SEED + 6));
    report.test("one change", || damaged::one_change(program, stripes, SEED + 7));
    let statuses = program.statuses.lock().map(|statuses| format!("{statuses:?}")).unwrap_or_default();
    println!("exit statuses seen, which aren't compared: {statuses}");
    report.end(TESTS)
}
