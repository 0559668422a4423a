//! Tests of the program on damaged packs, and on inputs that are no packs.

use crate::child::Program;
use second::compare::damage::{damages, Parts};
use second::compare::random::Random;
use second::compare::report::{count, in_two_threads, same, Outcome};
use second::compare::stripes::{lost_sets_up_to, name, Whole};
use second::pack::write_pack;

/// How many damages there are.
const DAMAGES: usize = 100;

fn find(stripes: &[Whole], n: usize, r: usize) -> Result<&Whole, String> {
    stripes.iter().find(|whole| (whole.shape.n, whole.shape.r) == (n, r)).ok_or(format!("no stripe of n = {n}, r = {r}"))
}

/// Each damage, for all shapes.
pub fn singly(program: &Program, stripes: &[Whole], seed: u64) -> Outcome {
    let compared = in_two_threads(stripes.len(), |case| {
        let Whole { shape, stripe } = &stripes[stripes.len() - 1 - case];
        let lost = 1 << Random::new(seed, case).below(shape.n);
        let all = damages(shape, lost, stripe);
        for damage in &all {
            let mut parts = Parts::of(shape, lost, stripe);
            damage.make(&mut parts);
            let what = format!("{}, lost set {lost:b}, {}", name(shape), damage.name);
            let answer = program.check_with_second(&what, &parts.bytes())?;
            same(&format!("{what}: second"), format!("refused {}\n", damage.step.number()), answer)?;
        }
        Ok(all.len())
    })?;
    count("packs", 38 * DAMAGES, compared)?;
    Ok(format!("{compared} damaged packs, {DAMAGES} damages for each shape"))
}

/// Every two damages of different parts at once for one shape, and some for a large one.
pub fn in_pairs(program: &Program, stripes: &[Whole], seed: u64) -> Outcome {
    const ALL: usize = 4_564;
    const LARGE: usize = 500;
    let mut cases = Vec::new();
    for (n, r) in [(8, 3), (16, 4)] {
        let whole = find(stripes, n, r)?;
        let all = damages(&whole.shape, 0b10, &whole.stripe);
        let mut pairs = Vec::new();
        for first in 0..all.len() {
            for second in first + 1..all.len() {
                if all[first].part != all[second].part {
                    pairs.push((first, second));
                }
            }
        }
        count("pairs of damages", ALL, pairs.len())?;
        if n == 16 {
            let mut random = Random::new(seed, 0);
            pairs = (0..LARGE).map(|_| pairs[random.below(pairs.len())]).collect();
        }
        cases.push((whole, all, pairs));
    }
    let compared = in_two_threads(ALL + LARGE, |case| {
        let (Whole { shape, stripe }, all, pairs) = if case < ALL { &cases[0] } else { &cases[1] };
        let (first, second) = pairs[if case < ALL { case } else { case - ALL }];
        let (first, second) = (&all[first], &all[second]);
        let mut parts = Parts::of(shape, 0b10, stripe);
        first.make(&mut parts);
        second.make(&mut parts);
        let what = format!("{}, {} and {}", name(shape), first.name, second.name);
        let answer = program.check_with_second(&what, &parts.bytes())?;
        same(&format!("{what}: second"), format!("refused {}\n", first.step.min(second.step).number()), answer)?;
        Ok(1)
    })?;
    count("packs", ALL + LARGE, compared)?;
    Ok(format!("{compared} packs with two damages: all {ALL} pairs for n = 8, r = 3, and {LARGE} of them for n = 16, r = 4"))
}

/// Packs cut off at every length.
pub fn cut_off(program: &Program, stripes: &[Whole]) -> Outcome {
    let mut cases = Vec::new();
    for (n, r, lost) in [(3, 2, 0b010), (5, 2, 0), (7, 3, 0b1), (9, 4, 0b1100), (16, 4, 0)] {
        let Whole { shape, stripe } = find(stripes, n, r)?;
        let pack = write_pack(shape, lost, stripe);
        cases.extend((0..pack.len()).map(|length| (shape, pack[..length].to_vec())));
    }
    let compared = in_two_threads(cases.len(), |case| {
        let (shape, input) = &cases[case];
        let what = format!("{}, cut off after {} bytes", name(shape), input.len());
        let answer = program.check_with_second(&what, input)?;
        let held = input.get(2).map_or(0, |&p| usize::from(p));
        let expected = if input.len() < 8 + 8 * held { 6 } else { 8 };
        same(&format!("{what}: second"), format!("refused {expected}\n"), answer)?;
        Ok(1)
    })?;
    count("inputs", 32 + 88 + 218 + 512 + 4_232, compared)?;
    Ok(format!("{compared} inputs: packs of 5 shapes cut off at every length, the longest pack among them"))
}

/// Packs with more bytes after them.
pub fn over_long(program: &Program, stripes: &[Whole], seed: u64) -> Outcome {
    const MORE: [usize; 5] = [1, 2, 100, 10_000, 200_000];
    let compared = in_two_threads(stripes.len(), |case| {
        let Whole { shape, stripe } = &stripes[stripes.len() - 1 - case];
        let mut random = Random::new(seed, case);
        let sets = lost_sets_up_to(shape, shape.r);
        for more in MORE {
            let lost = if more == 1 { 0 } else { sets[random.below(sets.len())] };
            let pack = [write_pack(shape, lost, stripe), random.bytes(more)].concat();
            let what = format!("{}, lost set {lost:b}, {more} bytes more", name(shape));
            same(&format!("{what}: second"), "refused 8\n", &program.check_with_second(&what, &pack)?)?;
        }
        Ok(MORE.len())
    })?;
    count("inputs", 38 * MORE.len(), compared)?;
    Ok(format!("{compared} inputs: packs of all shapes with 1, 2, 100, 10,000 and 200,000 bytes more"))
}

/// Random bytes of many lengths.
pub fn random_bytes(program: &Program, seed: u64) -> Outcome {
    const INPUTS: usize = 1_500;
    let compared = in_two_threads(INPUTS, |case| {
        let mut random = Random::new(seed, case);
        let length = if case < 500 { case % 100 } else { random.below(6_000) };
        let mut input = random.bytes(length);
        if case % 2 == 1 && length >= 8 {
            // A header that is mostly accepted, and random entries.
            input[0] = 3 + random.below(14) as u8;
            input[1] = 2 + random.below(3) as u8;
            input[2] = random.below(17) as u8;
            input[3] = 0;
        }
        program.check_with_second(&format!("{length} random bytes, case {case}"), &input)?;
        Ok(1)
    })?;
    count("inputs", INPUTS, compared)?;
    Ok(format!("{compared} inputs of random bytes, 0 to 6,000 of them, half with a header that is mostly accepted"))
}

/// Packs with one random byte changed.
pub fn one_change(program: &Program, stripes: &[Whole], seed: u64) -> Outcome {
    const EACH: usize = 40;
    let compared = in_two_threads(stripes.len(), |case| {
        let Whole { shape, stripe } = &stripes[stripes.len() - 1 - case];
        let mut random = Random::new(seed, case);
        let sets = lost_sets_up_to(shape, shape.r);
        for which in 0..EACH {
            let mut pack = write_pack(shape, sets[random.below(sets.len())], stripe);
            // Half of the changes are in the header and the entries.
            let place = random.below(if which % 2 == 0 { pack.len() } else { 8 + 8 * shape.k });
            let change = random.byte_not_zero();
            pack[place] ^= change;
            program.check_with_second(&format!("{}, byte {place} changed by {change}", name(shape)), &pack)?;
        }
        Ok(EACH)
    })?;
    count("packs", 38 * EACH, compared)?;
    Ok(format!("{compared} packs with one byte changed, {EACH} a shape"))
}
