//! Tests of laying, reading back, filling parity and testing.

use crate::calls;
use crate::shapes::shape_number;
use second::bench::{self, Rules};
use second::compare::random::Random;
use second::compare::report::{count, in_two_threads, same, same_bytes, Outcome};
use second::compare::stripes::{name, stripe_that_fails_at, Whole};
use second::equations::Tested;
use std::cell::RefCell;

/// Whether a call gave a buffer, or the refusal, that it should.
pub fn same_buffer(what: &str, expected: Result<&[u8], u8>, got: Result<Vec<u8>, u8>) -> Result<(), String> {
    match (expected, got) {
        (Ok(expected), Ok(got)) => same_bytes(what, expected, &got),
        (expected, got) => same(what, expected.err().unwrap_or(0), got.err().unwrap_or(0)).map_err(|text| format!("{text} (0 is done)")),
    }
}

/// Records of length 0, 1, k × l − 1, k × l and k × l + 1, laid and read back.
pub fn lay_and_read_back(stripes: &[Whole], seed: u64) -> Outcome {
    let compared = in_two_threads(stripes.len(), |case| {
        let shape = &stripes[case].shape;
        let number = shape_number(shape.n, shape.r);
        let mut random = Random::new(seed, case);
        let most = shape.record_length();
        for length in [0, 1, most - 1, most, most + 1] {
            let what = format!("{}, record of {length} bytes", name(shape));
            let record = random.bytes(length);
            let mut stripe = random.bytes(shape.stripe_length());
            let got = calls::lay(number, &record, &stripe).map_err(|text| format!("{what}: {text}"))?;
            let expected = second::lay(shape.n, shape.r, &record, &mut stripe).map_err(|refusal| refusal.number());
            same(&format!("{what}: second"), if length > most { Err(2) } else { Ok(()) }, expected)?;
            same_buffer(&format!("{what}: laid"), expected.map(|()| &stripe[..]), got)?;
            let mut back = random.bytes(most);
            let got = calls::read_back(number, &stripe, &back).map_err(|text| format!("{what}: {text}"))?;
            let expected = second::read_back(shape.n, shape.r, &stripe, &mut back).map_err(|refusal| refusal.number());
            same_buffer(&format!("{what}: read back"), expected.map(|()| &back[..]), got)?;
        }
        Ok(5)
    })?;
    count("records", 38 * 5, compared)?;
    Ok(format!("{compared} records, 5 a shape, laid and read back"))
}

/// Parity over rubbish, and the test of what comes out.
pub fn fill_parity(stripes: &[Whole], seed: u64) -> Outcome {
    let compared = in_two_threads(stripes.len(), |case| {
        let Whole { shape, stripe } = &stripes[case];
        let number = shape_number(shape.n, shape.r);
        let mut random = Random::new(seed, case);
        for rubbish in [random.bytes(shape.r * shape.l), vec![0; shape.r * shape.l], vec![255; shape.r * shape.l]] {
            let what = name(shape);
            let mut given = stripe.clone();
            given[shape.record_length()..].copy_from_slice(&rubbish);
            let got = calls::fill_parity(number, &given).map_err(|text| format!("{what}: {text}"))?;
            same_buffer(&format!("{what}: parity"), Ok(stripe), got)?;
            let got = calls::test(number, stripe).map_err(|text| format!("{what}: {text}"))?;
            same(&format!("{what}: test of a whole stripe"), Ok(Tested::Whole), got)?;
        }
        Ok(1)
    })?;
    count("shapes", 38, compared)?;
    Ok(format!("{compared} shapes, one whole stripe each by elimination, over 3 kinds of rubbish, and tested whole"))
}

/// The library as one that follows the rules. What it writes where it may not is kept here: a bench case can't carry it.
#[derive(Default)]
struct Library {
    difference: RefCell<Option<String>>,
}

impl Library {
    fn sound<Value>(&self, result: Result<Result<Value, u8>, String>) -> Result<Value, u8> {
        result.unwrap_or_else(|difference| {
            self.difference.borrow_mut().get_or_insert(difference);
            Err(u8::MAX)
        })
    }

    fn write(&self, result: Result<Result<Vec<u8>, u8>, String>, buffer: &mut [u8]) -> Result<(), u8> {
        buffer.copy_from_slice(&self.sound(result)?);
        Ok(())
    }
}

impl Rules for Library {
    fn rows(&self, n: usize, r: usize) -> Result<usize, u8> {
        self.sound(calls::sizes(calls::shape(n, r))).map(|sizes| sizes[3])
    }
    fn fill_parity(&self, n: usize, r: usize, stripe: &mut [u8]) -> Result<(), u8> {
        self.write(calls::fill_parity(calls::shape(n, r), stripe), stripe)
    }
    fn test(&self, n: usize, r: usize, stripe: &[u8]) -> Result<Tested, u8> {
        self.sound(calls::test(calls::shape(n, r), stripe))
    }
    fn cut(&self, n: usize, r: usize, helper: usize, failed: usize, column: &[u8], fraction: &mut [u8]) -> Result<(), u8> {
        self.write(calls::cut(calls::shape(n, r), helper, failed, column, fraction), fraction)
    }
    fn rebuild(&self, n: usize, r: usize, failed: usize, fractions: &[u8], column: &mut [u8]) -> Result<(), u8> {
        self.write(calls::rebuild(calls::shape(n, r), failed, fractions, column), column)
    }
    fn fill(&self, n: usize, r: usize, lost: u32, stripe: &mut [u8]) -> Result<(), u8> {
        self.write(calls::fill(calls::shape(n, r), lost, stripe), stripe)
    }
}

/// The bench cases of document 01, through the library and through second.
pub fn bench_cases() -> Outcome {
    count("cases through second", bench::CASES, bench::run(&bench::Second)?)?;
    bench::products()?;
    let library = Library::default();
    let cases = bench::run(&library);
    if let Some(difference) = library.difference.take() {
        return Err(format!("bench cases: {difference}"));
    }
    count("cases through the library", bench::CASES, cases?)?;
    Ok("cases A to M through second, and all but E, which asks for products, through the library".to_string())
}

/// Random stripes, stripes with one wrong byte, and stripes made to fail first at a chosen row and t.
pub fn test(stripes: &[Whole], seed: u64) -> Outcome {
    const RANDOM: usize = 40;
    const WRONG: usize = 60;
    const CHOSEN: usize = 16;
    let compared = in_two_threads(stripes.len(), |case| {
        let Whole { shape, stripe } = &stripes[stripes.len() - 1 - case];
        let number = shape_number(shape.n, shape.r);
        let mut random = Random::new(seed, case);
        let check = |what: &str, stripe: &[u8]| {
            let what = format!("{}, {what}", name(shape));
            let expected = second::test(shape.n, shape.r, stripe).map_err(|refusal| refusal.number());
            let got = calls::test(number, stripe).map_err(|text| format!("{what}: {text}"))?;
            same(&what, expected, got)?;
            got.map_err(|number| format!("{what}: refused {number}"))
        };
        for _ in 0..RANDOM {
            check("random stripe", &random.bytes(shape.stripe_length()))?;
        }
        for _ in 0..WRONG {
            let mut wrong = stripe.clone();
            let place = random.below(wrong.len());
            wrong[place] ^= random.byte_not_zero();
            let what = format!("byte {place} wrong");
            if check(&what, &wrong)? == Tested::Whole {
                return Err(format!("{}, {what}: tested whole", name(shape)));
            }
        }
        for which in 0..CHOSEN {
            // The last row and each t come first, then random ones.
            let a = if which < shape.r { shape.l - 1 } else { random.below(shape.l) };
            let t = which % shape.r;
            let what = format!("made to fail first at row {a} and t {t}");
            let got = check(&what, &stripe_that_fails_at(shape, &mut random, a, t))?;
            same(&format!("{}, {what}", name(shape)), Tested::Fails { a, t }, got)?;
        }
        Ok(RANDOM + WRONG + CHOSEN)
    })?;
    count("stripes", 38 * (RANDOM + WRONG + CHOSEN), compared)?;
    Ok(format!("{compared} stripes: for each shape {RANDOM} random, {WRONG} with one wrong byte, {CHOSEN} made to fail first at a chosen row and t"))
}
