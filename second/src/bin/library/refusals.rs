//! Tests of the refusals of every entry but the pack reader: each fault by itself, and every two faults at once for the order.

use crate::calls;
use crate::shapes::shape_number;
use second::compare::report::{count, in_two_threads, same, Outcome};
use second::compare::stripes::{name, Whole};
use second::refusal::Refusal;
use second::shape::Shape;

/// What a call is given. Each entry uses the part of it that it takes.
#[derive(Clone)]
struct Given {
    shape: u64,
    helper: usize,
    failed: usize,
    lost: u32,
    /// The first buffer, and the second.
    first: Vec<u8>,
    second: Vec<u8>,
}

/// One fault: what it changes, and the number that it is refused with.
struct Fault {
    name: String,
    part: &'static str,
    number: u8,
    act: Box<dyn Fn(&mut Given)>,
}

fn fault(name: String, part: &'static str, number: u8, act: impl Fn(&mut Given) + 'static) -> Fault {
    Fault { name, part, number, act: Box::new(act) }
}

/// Shapes that aren't accepted.
fn shape_faults(shape: &Shape) -> Vec<Fault> {
    let good = shape_number(shape.n, shape.r);
    let (n, r) = (shape.n, shape.r);
    let mut numbers = Vec::new();
    for (n, r) in [(0, 0), (0, r), (r, r), (17, r), (32, r), (255, r), (n, 0), (n, 1), (n, 5), (n, 255), (255, 255), (16, 3)] {
        numbers.push(shape_number(n, r));
    }
    for high in [1 << 16, 1 << 17, 1 << 24, 1 << 31, 1 << 32, 1 << 48, 1 << 63, u64::MAX << 16] {
        numbers.push(good | high);
    }
    numbers.push(u64::MAX);
    numbers.into_iter().map(|number| fault(format!("shape {number}"), "shape", 1, move |given| given.shape = number)).collect()
}

/// The first or the second buffer with a wrong length: one more, one less, 0, double. A record to be laid may be shorter.
fn length_faults(part: &'static str, good: usize, only_longer: bool) -> Vec<Fault> {
    let mut lengths = vec![good + 1, good * 2];
    if !only_longer {
        lengths.extend([good - 1, 0]);
    }
    let mut all = Vec::new();
    for length in lengths {
        let name = format!("{part} of {length} bytes instead of {good}");
        all.push(fault(name, part, 2, move |given| {
            let buffer = if part == "first buffer" { &mut given.first } else { &mut given.second };
            buffer.resize(length, 0xC3);
        }));
    }
    all
}

/// Node numbers that no node of the shape has. The higher ones would be right if higher bits were lost on the way.
fn bad_nodes(shape: &Shape) -> Vec<usize> {
    let mut all = vec![0, shape.n + 1, shape.n + 2, shape.n + 16, 17, 255, 256, usize::MAX, usize::MAX - 1];
    for bit in [8, 16, 32, 63] {
        all.extend([(1 << bit) + 1, (1 << bit) + 2]);
    }
    all
}

fn helper_faults(shape: &Shape) -> Vec<Fault> {
    let act = |node| fault(format!("helper {node}"), "helper", 3, move |given: &mut Given| given.helper = node);
    bad_nodes(shape).into_iter().map(act).collect()
}

fn failed_faults(shape: &Shape) -> Vec<Fault> {
    let act = |node| fault(format!("failed {node}"), "failed", 3, move |given: &mut Given| given.failed = node);
    bad_nodes(shape).into_iter().map(act).collect()
}

/// Lost bits above n, more than r lost, and a wrong byte.
fn lost_faults(shape: &Shape) -> Vec<Fault> {
    let mut all = Vec::new();
    for bit in shape.n..32 {
        all.push(fault(format!("lost bit {bit}"), "lost bit above n", 3, move |given| given.lost |= 1 << bit));
    }
    let above = u32::MAX << shape.n;
    all.push(fault("all bits above n".to_string(), "lost bit above n", 3, move |given| given.lost |= above));
    let (all_nodes, first_nodes) = ((1 << shape.n) - 1, (2 << shape.r) - 1);
    all.push(fault("all nodes lost".to_string(), "lost", 4, move |given| given.lost = given.lost & above | all_nodes));
    all.push(fault("nodes 1 to r + 1 lost".to_string(), "lost", 4, move |given| given.lost = given.lost & above | first_nodes));
    all
}

/// An entry's call, by the library: 0 or the refusal.
type Call = fn(&Given) -> Result<u8, String>;

/// The same by second, for a shape of n and r.
type SecondCall = fn(usize, usize, Given) -> Result<(), Refusal>;

/// One entry, and the faults that can be made in a call of it.
struct Entry {
    name: &'static str,
    good: Given,
    faults: Vec<Fault>,
    library: Call,
    second: SecondCall,
}

fn code<Value>(result: Result<Result<Value, u8>, String>) -> Result<u8, String> {
    Ok(result?.err().unwrap_or(0))
}

/// Every entry for one shape, with a call that is done and all its faults.
fn entries(whole: &Whole) -> Vec<Entry> {
    let Whole { shape, stripe } = whole;
    let (l, most) = (shape.l, shape.record_length());
    let good = |first: Vec<u8>, second: Vec<u8>| Given { shape: shape_number(shape.n, shape.r), helper: 2, failed: 1, lost: 1, first, second };
    let rubbish = |length: usize| (0..length).map(|place| (place * 29 + 3) as u8).collect::<Vec<u8>>();
    let fraction = shape.fraction_length();
    let lengths = |first: usize, second: usize| {
        let mut all = length_faults("first buffer", first, false);
        all.extend(length_faults("second buffer", second, false));
        all.extend(shape_faults(shape));
        all
    };
    let one_length = || {
        let mut all = length_faults("first buffer", stripe.len(), false);
        all.extend(shape_faults(shape));
        all
    };
    let mut lay_faults = length_faults("first buffer", most, true);
    lay_faults.extend(length_faults("second buffer", stripe.len(), false));
    lay_faults.extend(shape_faults(shape));
    let mut cut_faults = lengths(l, fraction);
    cut_faults.extend(helper_faults(shape));
    cut_faults.extend(failed_faults(shape));
    cut_faults.push(fault("helper as failed".to_string(), "helper", 3, |given| given.helper = given.failed));
    let mut rebuild_faults = lengths((shape.n - 1) * fraction, l);
    rebuild_faults.extend(failed_faults(shape));
    // The wrong byte comes first, while the stripe has its length.
    let wrong = stripe.len() - 1;
    let mut fill_faults = vec![fault("a wrong byte".to_string(), "content", 5, move |given| given.first[wrong] ^= 0x40)];
    fill_faults.extend(one_length());
    fill_faults.extend(lost_faults(shape));
    vec![
        Entry {
            name: "lay",
            good: good(rubbish(most), rubbish(stripe.len())),
            faults: lay_faults,
            library: |given| code(calls::lay(given.shape, &given.first, &given.second)),
            second: |n, r, mut given| second::lay(n, r, &given.first, &mut given.second),
        },
        Entry {
            name: "read back",
            good: good(stripe.clone(), rubbish(most)),
            faults: lengths(stripe.len(), most),
            library: |given| code(calls::read_back(given.shape, &given.first, &given.second)),
            second: |n, r, mut given| second::read_back(n, r, &given.first, &mut given.second),
        },
        Entry {
            name: "fill parity",
            good: good(rubbish(stripe.len()), Vec::new()),
            faults: one_length(),
            library: |given| code(calls::fill_parity(given.shape, &given.first)),
            second: |n, r, mut given| second::fill_parity(n, r, &mut given.first),
        },
        Entry {
            name: "test",
            good: good(stripe.clone(), Vec::new()),
            faults: one_length(),
            library: |given| code(calls::test(given.shape, &given.first)),
            second: |n, r, given| second::test(n, r, &given.first).map(|_| ()),
        },
        Entry {
            name: "cut",
            good: good(rubbish(l), rubbish(fraction)),
            faults: cut_faults,
            library: |given| code(calls::cut(given.shape, given.helper, given.failed, &given.first, &given.second)),
            second: |n, r, mut given| second::cut(n, r, given.helper, given.failed, &given.first, &mut given.second),
        },
        Entry {
            name: "rebuild",
            good: good(rubbish((shape.n - 1) * fraction), rubbish(l)),
            faults: rebuild_faults,
            library: |given| code(calls::rebuild(given.shape, given.failed, &given.first, &given.second)),
            second: |n, r, mut given| second::rebuild(n, r, given.failed, &given.first, &mut given.second),
        },
        Entry {
            name: "fill",
            good: good(stripe.clone(), Vec::new()),
            faults: fill_faults,
            library: |given| code(calls::fill(given.shape, given.lost, &given.first)),
            second: |n, r, mut given| second::fill(n, r, given.lost, &mut given.first),
        },
    ]
}

/// Makes the given faults in a call of the entry, and compares the library, second, and the lowest number of the faults.
fn check(shape: &Shape, entry: &Entry, faults: &[&Fault]) -> Result<(), String> {
    let mut given = entry.good.clone();
    let mut expected = 0;
    for fault in faults {
        (fault.act)(&mut given);
        if expected == 0 || fault.number < expected {
            expected = fault.number;
        }
    }
    let names: Vec<&str> = faults.iter().map(|fault| fault.name.as_str()).collect();
    let what = format!("{}, {}, faults {names:?}", entry.name, name(shape));
    let got = (entry.library)(&given).map_err(|text| format!("{what}: {text}"))?;
    same(&what, expected, got)?;
    // Second takes n and r. A number with higher bits stands for no shape at all.
    let (n, r) = if given.shape >> 16 == 0 { (given.shape % 256, given.shape / 256) } else { (0, 0) };
    let by_second = (entry.second)(n as usize, r as usize, given).map_err(|refusal| refusal.number());
    same(&format!("{what}: second"), expected, by_second.err().unwrap_or(0))
}

/// All refusals of every entry, for every shape.
pub fn every_entry(stripes: &[Whole]) -> Outcome {
    let singles = std::sync::atomic::AtomicUsize::new(0);
    let compared = in_two_threads(stripes.len(), |case| {
        let whole = &stripes[stripes.len() - 1 - case];
        let mut calls = 0;
        for entry in entries(whole) {
            check(&whole.shape, &entry, &[])?;
            for (place, first) in entry.faults.iter().enumerate() {
                check(&whole.shape, &entry, &[first])?;
                singles.fetch_add(1, std::sync::atomic::Ordering::SeqCst);
                for second in entry.faults[place + 1..].iter().filter(|second| second.part != first.part) {
                    check(&whole.shape, &entry, &[first, second])?;
                    calls += 1;
                }
            }
        }
        Ok(calls)
    })?;
    let singles = singles.into_inner();
    count("single faults", SINGLES, singles)?;
    count("pairs of faults", PAIRS, compared)?;
    Ok(format!("7 entries of 38 shapes: {singles} single faults and {compared} pairs of faults, every buffer and number kept"))
}

/// How many faults there are in all: 277 − n for a shape, since fill has 32 − n bits above n, and the nodes of all shapes are 373.
const SINGLES: usize = 38 * 277 - 373;
/// How many pairs of faults of two different parts there are: each bit above n makes one with each of the 28 other faults of fill.
const PAIRS: usize = 38 * 3_753 - 28 * 373;

/// Null pointers with length 0.
pub fn null_pointers(stripes: &[Whole]) -> Outcome {
    let mut compared = 0;
    for Whole { shape, .. } in stripes {
        for (what, got, expected) in calls::with_null_pointers(shape_number(shape.n, shape.r), shape.n, shape.r, shape.l)? {
            same(&format!("{}, {what}", name(shape)), expected, got)?;
            compared += 1;
        }
    }
    count("calls", 38 * 30, compared)?;
    Ok(format!("{compared} calls with null pointers and length 0, an empty record laid among them"))
}
