//! Tests of cutting and rebuilding.

use crate::calls;
use crate::shapes::shape_number;
use crate::stripes::same_buffer;
use second::compare::random::Random;
use second::compare::report::{count, in_two_threads, same_bytes, Outcome};
use second::compare::stripes::{name, Whole};
use second::shape::Shape;

/// Every pair of a helper and a failed node.
pub fn cut(stripes: &[Whole], seed: u64) -> Outcome {
    let compared = in_two_threads(stripes.len(), |case| {
        let shape = &stripes[case].shape;
        let mut random = Random::new(seed, case);
        let mut pairs = 0;
        for helper in 1..=shape.n {
            for failed in (1..=shape.n).filter(|&failed| failed != helper) {
                let what = format!("{}, helper {helper}, failed {failed}", name(shape));
                let column = random.bytes(shape.l);
                let mut fraction = random.bytes(shape.fraction_length());
                let got = calls::cut(shape_number(shape.n, shape.r), helper, failed, &column, &fraction).map_err(|text| format!("{what}: {text}"))?;
                let expected = second::cut(shape.n, shape.r, helper, failed, &column, &mut fraction).map_err(|refusal| refusal.number());
                same_buffer(&what, expected.map(|()| &fraction[..]), got)?;
                pairs += 1;
            }
        }
        Ok(pairs)
    })?;
    count("pairs of helper and failed", 3_810, compared)?;
    Ok(format!("{compared} pairs of a helper and a failed node, all of every shape"))
}

/// The fractions of all helpers of a stripe, cut by the library, end to end.
fn fractions_of(shape: &Shape, failed: usize, stripe: &[u8]) -> Result<Vec<u8>, String> {
    let mut all = Vec::new();
    for helper in (1..=shape.n).filter(|&helper| helper != failed) {
        let column = &stripe[shape.column(helper)];
        let cut = calls::cut(shape_number(shape.n, shape.r), helper, failed, column, &vec![0; shape.fraction_length()])?;
        all.extend(cut.map_err(|number| format!("{}, helper {helper}, failed {failed}: refused {number}", name(shape)))?);
    }
    Ok(all)
}

/// Every node of every shape, from a whole stripe and from random fractions.
pub fn rebuild(stripes: &[Whole], seed: u64) -> Outcome {
    const RANDOM: usize = 3;
    let compared = in_two_threads(stripes.len(), |case| {
        let Whole { shape, stripe } = &stripes[stripes.len() - 1 - case];
        let number = shape_number(shape.n, shape.r);
        let mut random = Random::new(seed, case);
        for failed in 1..=shape.n {
            let what = format!("{}, failed {failed}", name(shape));
            let fractions = fractions_of(shape, failed, stripe)?;
            let got = calls::rebuild(number, failed, &fractions, &random.bytes(shape.l)).map_err(|text| format!("{what}: {text}"))?;
            same_buffer(&format!("{what}, from a whole stripe"), Ok(&stripe[shape.column(failed)]), got)?;
            for _ in 0..RANDOM {
                let fractions = random.bytes(fractions.len());
                let mut column = random.bytes(shape.l);
                let got = calls::rebuild(number, failed, &fractions, &column).map_err(|text| format!("{what}: {text}"))?;
                second::rebuild(shape.n, shape.r, failed, &fractions, &mut column).map_err(|refusal| format!("{what}: second {refusal:?}"))?;
                let got = got.map_err(|number| format!("{what}, random fractions: refused {number}"))?;
                same_bytes(&format!("{what}, from random fractions"), &column, &got)?;
            }
        }
        Ok(shape.n * (1 + RANDOM))
    })?;
    count("rebuilt columns", 373 * (1 + RANDOM), compared)?;
    Ok(format!("{compared} columns: each node of every shape from a whole stripe, and {RANDOM} times from random fractions by elimination"))
}
