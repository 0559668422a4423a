//! Tests of filling lost columns.

use crate::calls;
use crate::shapes::shape_number;
use crate::stripes::same_buffer;
use second::compare::random::Random;
use second::compare::report::{count, in_two_threads, same, Outcome};
use second::compare::stripes::{lost_sets, lost_sets_up_to, name, spoil, Whole};
use second::equations::Tested;
use second::filling::lost_nodes;
use second::shape::Shape;

/// A case: which whole stripe, and a lost set.
struct Case<'a> {
    shape: &'a Shape,
    stripe: &'a [u8],
    lost: u32,
}

impl Case<'_> {
    fn name(&self) -> String {
        format!("{}, lost {:?}", name(self.shape), lost_nodes(self.shape, self.lost))
    }
}

/// The cases of all shapes, the largest first, for the lost sets that `sets` gives for a shape.
fn cases(stripes: &[Whole], sets: impl Fn(&Shape) -> Vec<u32>) -> Vec<Case<'_>> {
    let mut all = Vec::new();
    for Whole { shape, stripe } in stripes.iter().rev() {
        all.extend(sets(shape).into_iter().map(|lost| Case { shape, stripe, lost }));
    }
    all
}

/// Fills through the library and compares with the stripe or the refusal that is expected.
fn check(what: &str, shape: &Shape, lost: u32, given: &[u8], expected: Result<&[u8], u8>) -> Result<(), String> {
    let got = calls::fill(shape_number(shape.n, shape.r), lost, given).map_err(|text| format!("{what}: {text}"))?;
    same_buffer(what, expected, got)
}

/// Fills by elimination: the stripe, or the refusal.
fn by_elimination(shape: &Shape, lost: u32, given: &[u8]) -> Result<Vec<u8>, u8> {
    let mut stripe = given.to_vec();
    second::fill(shape.n, shape.r, lost, &mut stripe).map_err(|refusal| refusal.number())?;
    Ok(stripe)
}

/// Every pair of a shape and a lost set of at most r: a whole stripe, its lost columns spoilt, is filled.
pub fn every_lost_set(stripes: &[Whole], seed: u64) -> Outcome {
    let cases = cases(stripes, |shape| lost_sets_up_to(shape, shape.r));
    let compared = in_two_threads(cases.len(), |case| {
        let each = &cases[case];
        let mut given = each.stripe.to_vec();
        spoil(each.shape, &mut Random::new(seed, case), each.lost, &mut given);
        check(&each.name(), each.shape, each.lost, &given, Ok(each.stripe))?;
        // Once more with every bit of the rubbish the other way round: what was there has no influence.
        for i in lost_nodes(each.shape, each.lost) {
            given[each.shape.column(i)].iter_mut().for_each(|byte| *byte = !*byte);
        }
        check(&each.name(), each.shape, each.lost, &given, Ok(each.stripe))?;
        Ok(1)
    })?;
    count("pairs of a shape and a lost set", 12_697, compared)?;
    Ok(format!("{compared} pairs of a shape and a lost set of at most r, against a whole stripe, each over two kinds of rubbish"))
}

/// Exactly r lost and survivors chosen freely, by elimination.
pub fn free_survivors(stripes: &[Whole], seed: u64) -> Outcome {
    const LARGE: usize = 60;
    let small = |shape: &Shape| shape.r * shape.l <= 256;
    let cases = cases(stripes, |shape| {
        let sets = lost_sets(shape, shape.r);
        if small(shape) {
            return sets;
        }
        let mut random = Random::new(seed, shape.n * 5 + shape.r);
        (0..LARGE).map(|_| sets[random.below(sets.len())]).collect()
    });
    let all = in_two_threads(cases.len(), |case| {
        let each = &cases[case];
        let given = Random::new(seed, 1000 + case).bytes(each.shape.stripe_length());
        let expected = by_elimination(each.shape, each.lost, &given);
        check(&each.name(), each.shape, each.lost, &given, expected.as_deref().map_err(|&number| number))?;
        same(&format!("{}: refusal", each.name()), None, expected.err())?;
        Ok(1)
    })?;
    let small_ones = cases.iter().filter(|each| small(each.shape)).count();
    count("lost sets of shapes with r × l at most 256", 2454, small_ones)?;
    count("lost sets", 2454 + 9 * LARGE, all)?;
    Ok(format!("{all} lost sets of r nodes by elimination: all {small_ones} of the shapes with r × l at most 256, {LARGE} of each other"))
}

/// Exactly r lost and survivors chosen freely, every lost set of every shape: the survivors are kept and the stripe is whole.
pub fn free_survivors_tested(stripes: &[Whole], seed: u64) -> Outcome {
    let cases = cases(stripes, |shape| lost_sets(shape, shape.r));
    let compared = in_two_threads(cases.len(), |case| {
        let each = &cases[case];
        let shape = each.shape;
        let mut random = Random::new(seed, case);
        let given = random.bytes(shape.stripe_length());
        let got = calls::fill(shape_number(shape.n, shape.r), each.lost, &given).map_err(|text| format!("{}: {text}", each.name()))?;
        let filled = got.map_err(|number| format!("{}: refused {number}", each.name()))?;
        let mut expected = given;
        for i in lost_nodes(shape, each.lost) {
            expected[shape.column(i)].copy_from_slice(&filled[shape.column(i)]);
        }
        same_buffer(&format!("{}: survivors", each.name()), Ok(&expected), Ok(filled.clone()))?;
        same(&each.name(), Ok(Tested::Whole), second::test(shape.n, shape.r, &filled))?;
        Ok(1)
    })?;
    count("lost sets of r nodes", 8_685, compared)?;
    Ok(format!("{compared} lost sets of r nodes, all of every shape: survivors kept, every equation evaluated"))
}

/// One wrong byte with fewer than r lost is refused.
pub fn one_wrong_byte(stripes: &[Whole], seed: u64) -> Outcome {
    let cases = cases(stripes, |shape| lost_sets_up_to(shape, shape.r - 1));
    let solved = std::sync::atomic::AtomicUsize::new(0);
    let compared = in_two_threads(cases.len(), |case| {
        let each = &cases[case];
        let shape = each.shape;
        let mut random = Random::new(seed, case);
        let survivors: Vec<usize> = (1..=shape.n).filter(|&i| !second::filling::is_lost(each.lost, i)).collect();
        let mut given = each.stripe.to_vec();
        spoil(shape, &mut random, each.lost, &mut given);
        let i = survivors[random.below(survivors.len())];
        let a = random.below(shape.l);
        given[shape.column(i)][a] ^= random.byte_not_zero();
        let what = format!("{}, wrong byte of node {i} at row {a}", each.name());
        if shape.l <= 81 {
            same(&format!("{what}: second"), Err(5), by_elimination(shape, each.lost, &given).map(|_| ()))?;
            solved.fetch_add(1, std::sync::atomic::Ordering::SeqCst);
        }
        check(&what, shape, each.lost, &given, Err(5))?;
        Ok(1)
    })?;
    count("lost sets of fewer than r nodes", 4_012, compared)?;
    let solved = solved.into_inner();
    count("of them by elimination", cases.iter().filter(|each| each.shape.l <= 81).count(), solved)?;
    Ok(format!("{compared} lost sets of fewer than r nodes, all of every shape, with one wrong byte: refused 5; {solved} also by elimination"))
}

/// Fewer than r lost and several wrong bytes, or survivors chosen freely, or made whole again: by elimination.
pub fn fewer_lost_by_elimination(stripes: &[Whole], seed: u64) -> Outcome {
    const EACH: usize = 60;
    let compared = in_two_threads(stripes.len(), |case| {
        let Whole { shape, stripe } = &stripes[stripes.len() - 1 - case];
        let mut random = Random::new(seed, case);
        let sets = lost_sets_up_to(shape, shape.r - 1);
        let mut done = 0;
        for which in 0..EACH {
            let lost = sets[random.below(sets.len())];
            let mut given = stripe.clone();
            spoil(shape, &mut random, lost, &mut given);
            if which % 3 == 1 {
                given = random.bytes(shape.stripe_length());
            }
            if which % 3 == 2 {
                for _ in 0..2 {
                    let place = random.below(given.len());
                    given[place] ^= random.byte_not_zero();
                }
            }
            let expected = by_elimination(shape, lost, &given);
            done += usize::from(expected.is_ok());
            let what = format!("{}, lost {:?}", name(shape), lost_nodes(shape, lost));
            check(&what, shape, lost, &given, expected.as_deref().map_err(|&number| number))?;
        }
        if done < EACH / 3 {
            return Err(format!("{}: second filled {done} of {EACH}, at least {} are whole", name(shape), EACH / 3));
        }
        Ok(EACH)
    })?;
    count("fillings", 38 * EACH, compared)?;
    Ok(format!(
        "{compared} fillings of fewer than r nodes by elimination, {EACH} a shape: a third whole, a third random, a third with two wrong bytes"
    ))
}

/// The empty lost set: done for a whole stripe, refused 5 for another.
pub fn empty_lost_set(stripes: &[Whole], seed: u64) -> Outcome {
    const EACH: usize = 50;
    let compared = in_two_threads(stripes.len(), |case| {
        let Whole { shape, stripe } = &stripes[case];
        let mut random = Random::new(seed, case);
        check(&format!("{}, none lost, whole", name(shape)), shape, 0, stripe, Ok(stripe))?;
        let zeros = vec![0; shape.stripe_length()];
        check(&format!("{}, none lost, all zero", name(shape)), shape, 0, &zeros, Ok(&zeros))?;
        for _ in 0..EACH {
            let mut wrong = stripe.clone();
            let place = random.below(wrong.len());
            wrong[place] ^= random.byte_not_zero();
            check(&format!("{}, none lost, byte {place} wrong", name(shape)), shape, 0, &wrong, Err(5))?;
        }
        // One that fails only at the very last equation.
        let last = second::compare::stripes::stripe_that_fails_at(shape, &mut random, shape.l - 1, shape.r - 1);
        check(&format!("{}, none lost, last equation wrong", name(shape)), shape, 0, &last, Err(5))?;
        Ok(EACH + 3)
    })?;
    count("stripes", 38 * (EACH + 3), compared)?;
    Ok(format!("{compared} stripes with none lost: whole ones done, {EACH} a shape with one wrong byte and one with one wrong equation refused 5"))
}
