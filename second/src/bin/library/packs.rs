//! Tests of the pack reader.

use crate::calls;
use crate::shapes::shape_number;
use second::compare::damage::{damages, Damage, Parts, Step};
use second::compare::random::Random;
use second::compare::report::{count, in_two_threads, same, same_bytes, Outcome};
use second::compare::stripes::{lost_sets, lost_sets_up_to, name, Whole};
use second::pack::{write_pack, STRIPE_BUFFER};

/// Reads a pack through the library, and compares with the shape, lost set and stripe, or the refusal, that is expected.
fn check(what: &str, pack: &[u8], buffer: &[u8], expected: Result<(u64, u32, &[u8]), u8>) -> Result<(), String> {
    let got = calls::read_pack(pack, buffer).map_err(|text| format!("{what}: {text}"))?;
    match (expected, got) {
        (Ok((shape, lost, stripe)), Ok(got)) => {
            same(&format!("{what}: shape"), shape, got.shape)?;
            same(&format!("{what}: lost"), lost, got.lost)?;
            let whole_buffer = [stripe, &buffer[stripe.len()..]].concat();
            same_bytes(&format!("{what}: stripe buffer"), &whole_buffer, &got.buffer)
        }
        (expected, got) => same(what, expected.err().unwrap_or(0), got.err().unwrap_or(0)).map_err(|text| format!("{text} (0 is done)")),
    }
}

/// Compares the library with second on a pack, and answers with what second says: 0 or the refusal.
fn check_with_second(what: &str, pack: &[u8], buffer: &[u8]) -> Result<u8, String> {
    let mut written = buffer.to_vec();
    let answer = second::read_pack(pack, &mut written);
    let expected = match &answer {
        Ok(unpacked) => {
            let shape = unpacked.shape;
            Ok((shape_number(shape.n, shape.r), unpacked.lost, &written[..shape.stripe_length()]))
        }
        Err(refusal) => Err(refusal.number()),
    };
    check(what, pack, buffer, expected)?;
    Ok(answer.err().map_or(0, |refusal| refusal.number()))
}

/// Packs of all shapes and every lost set of at most r, of whole stripes.
pub fn every_lost_set(stripes: &[Whole], seed: u64) -> Outcome {
    let mut cases = Vec::new();
    for whole in stripes.iter().rev() {
        cases.extend(lost_sets_up_to(&whole.shape, whole.shape.r).into_iter().map(|lost| (whole, lost)));
    }
    let compared = in_two_threads(cases.len(), |case| {
        let (Whole { shape, stripe }, lost) = cases[case];
        let buffer = Random::new(seed, case).bytes(STRIPE_BUFFER);
        let what = format!("{}, lost set {lost:b}", name(shape));
        check(&what, &write_pack(shape, lost, stripe), &buffer, Ok((shape_number(shape.n, shape.r), lost, stripe)))?;
        Ok(1)
    })?;
    count("packs", 12_697, compared)?;
    Ok(format!("{compared} packs, every pair of a shape and a lost set of at most r, bytes after the stripe kept"))
}

/// Packs with survivors chosen freely, by elimination.
pub fn by_elimination(stripes: &[Whole], seed: u64) -> Outcome {
    const EACH: usize = 20;
    let compared = in_two_threads(stripes.len(), |case| {
        let Whole { shape, stripe } = &stripes[stripes.len() - 1 - case];
        let mut random = Random::new(seed, case);
        let buffer = random.bytes(STRIPE_BUFFER);
        let most_lost = lost_sets(shape, shape.r);
        let (mut done, mut refused) = (0, 0);
        for which in 0..EACH {
            // Half of them have as many lost as may be, the others any number.
            let any = random.below(1 << shape.n) as u32;
            let lost = if which % 2 == 0 { most_lost[random.below(most_lost.len())] } else { any };
            let content = if which % 4 == 3 { stripe.clone() } else { random.bytes(shape.stripe_length()) };
            let what = format!("{}, lost set {lost:b}", name(shape));
            match check_with_second(&what, &write_pack(shape, lost, &content), &buffer)? {
                0 => done += 1,
                _ => refused += 1,
            }
        }
        if done < EACH / 2 {
            return Err(format!("{}: {done} of {EACH} packs read, {refused} refused", name(shape)));
        }
        Ok(EACH)
    })?;
    count("packs", 38 * EACH, compared)?;
    Ok(format!("{compared} packs with survivors chosen freely, {EACH} a shape, by elimination"))
}

/// Each damage, for all shapes.
pub fn damaged_singly(stripes: &[Whole], seed: u64) -> Outcome {
    let compared = in_two_threads(stripes.len(), |case| {
        let Whole { shape, stripe } = &stripes[stripes.len() - 1 - case];
        let mut random = Random::new(seed, case);
        let buffer = random.bytes(STRIPE_BUFFER);
        let mut packs = 0;
        for lost in [0, 1 << random.below(shape.n)] {
            for damage in damages(shape, lost, stripe) {
                let mut parts = Parts::of(shape, lost, stripe);
                damage.make(&mut parts);
                let what = format!("{}, lost set {lost:b}, {}", name(shape), damage.name);
                let answer = check_with_second(&what, &parts.bytes(), &buffer)?;
                same(&format!("{what}: second"), damage.step.number(), answer)?;
                packs += 1;
            }
        }
        Ok(packs)
    })?;
    count("packs", 38 * 2 * DAMAGES, compared)?;
    Ok(format!("{compared} damaged packs of all shapes: {DAMAGES} damages, with none and one lost"))
}

/// How many damages there are.
const DAMAGES: usize = 100;

/// The shapes whose packs are damaged twice. Each has at least three entries left when one more than r is lost, so that first, middle and last are
/// three entries.
const TWICE: [(usize, usize); 5] = [(6, 2), (8, 3), (9, 4), (15, 3), (16, 4)];

/// Every two damages of different parts at once, and each with a stripe buffer of another length.
pub fn damaged_in_pairs(stripes: &[Whole], seed: u64) -> Outcome {
    let chosen: Vec<&Whole> = stripes.iter().filter(|whole| TWICE.contains(&(whole.shape.n, whole.shape.r))).collect();
    count("shapes", TWICE.len(), chosen.len())?;
    let mut cases = Vec::new();
    for whole in &chosen {
        let all = damages(&whole.shape, 0b10, &whole.stripe);
        cases.extend((0..all.len()).map(|first| (*whole, first)));
    }
    let compared = in_two_threads(cases.len(), |case| {
        let (Whole { shape, stripe }, place) = cases[case];
        let buffer = Random::new(seed, case).bytes(STRIPE_BUFFER);
        let all = damages(shape, 0b10, stripe);
        let first = &all[place];
        let mut packs = 0;
        let pairs = all[place + 1..].iter().filter(|second| second.part != first.part);
        for second in pairs {
            let mut parts = Parts::of(shape, 0b10, stripe);
            first.make(&mut parts);
            second.make(&mut parts);
            let what = format!("{}, {} and {}", name(shape), first.name, second.name);
            let answer = check_with_second(&what, &parts.bytes(), &buffer)?;
            same(&format!("{what}: second"), first.step.min(second.step).number(), answer)?;
            packs += 1;
        }
        let mut parts = Parts::of(shape, 0b10, stripe);
        first.make(&mut parts);
        for length in wrong_buffers(shape.stripe_length()) {
            let what = format!("{}, {} and a stripe buffer of {length} bytes", name(shape), first.name);
            let answer = check_with_second(&what, &parts.bytes(), &vec![0x3C; length])?;
            same(&format!("{what}: second"), Step::Buffer.number(), answer)?;
            packs += 1;
        }
        Ok(packs)
    })?;
    count("packs", PAIRS, compared)?;
    Ok(format!("{compared} packs of {} shapes with two damages, a stripe buffer of another length as one of them", TWICE.len()))
}

/// How many pairs of damages there are in all: for each shape 4,564 of different parts, and each damage with 6 lengths of the buffer.
const PAIRS: usize = 5 * (4_564 + 6 * DAMAGES);

/// Lengths that the stripe buffer hasn't.
fn wrong_buffers(stripe_length: usize) -> Vec<usize> {
    let mut all = vec![0, 1, 4095, 4097, 8192];
    if stripe_length != STRIPE_BUFFER {
        all.push(stripe_length);
    } else {
        all.push(4080);
    }
    all
}

/// Good packs with a stripe buffer of another length.
pub fn buffer_lengths(stripes: &[Whole]) -> Outcome {
    let compared = in_two_threads(stripes.len(), |case| {
        let Whole { shape, stripe } = &stripes[case];
        let lengths = wrong_buffers(shape.stripe_length());
        for &length in &lengths {
            let what = format!("{}, stripe buffer of {length} bytes", name(shape));
            let answer = check_with_second(&what, &write_pack(shape, 1, stripe), &vec![0x3C; length])?;
            same(&format!("{what}: second"), 2, answer)?;
        }
        Ok(lengths.len())
    })?;
    count("packs", 38 * 6, compared)?;
    Ok(format!("{compared} good packs with a stripe buffer of another length: refused 2"))
}

/// Packs cut off at every length, and over-long.
pub fn truncated_and_over_long(stripes: &[Whole], seed: u64) -> Outcome {
    let compared = in_two_threads(stripes.len(), |case| {
        let Whole { shape, stripe } = &stripes[stripes.len() - 1 - case];
        let mut random = Random::new(seed, case);
        let buffer = random.bytes(STRIPE_BUFFER);
        let pack = write_pack(shape, 0, stripe);
        for length in 0..pack.len() {
            let what = format!("{}, cut off after {length} bytes", name(shape));
            let expected = if length < 8 + 8 * shape.n { 6 } else { 8 };
            same(&format!("{what}: second"), expected, check_with_second(&what, &pack[..length], &buffer)?)?;
        }
        for more in [1, 2, 100, 10_000] {
            let what = format!("{}, {more} bytes more", name(shape));
            let longer = [&pack[..], &random.bytes(more)].concat();
            same(&format!("{what}: second"), 8, check_with_second(&what, &longer, &buffer)?)?;
        }
        Ok(pack.len() + 4)
    })?;
    count("packs", TRUNCATED, compared)?;
    Ok(format!("{compared} packs: one of each shape cut off at every length, and 1, 2, 100 and 10,000 bytes longer"))
}

/// The lengths of a pack with none lost, added up over all shapes, and four more for each: 8 + 8 × n + n × l + 4.
const TRUNCATED: usize = 12 * 38 + 8 * 373 + 45_442;

/// Packs with one random byte changed anywhere, and random bytes.
pub fn random_changes(stripes: &[Whole], seed: u64) -> Outcome {
    const EACH: usize = 80;
    let compared = in_two_threads(stripes.len(), |case| {
        let Whole { shape, stripe } = &stripes[stripes.len() - 1 - case];
        let mut random = Random::new(seed, case);
        let buffer = random.bytes(STRIPE_BUFFER);
        let sets = lost_sets_up_to(shape, shape.r);
        for which in 0..EACH {
            let mut pack = write_pack(shape, sets[random.below(sets.len())], stripe);
            // Half of the changes are in the header and the entries.
            let place = random.below(if which % 2 == 0 { pack.len() } else { 8 + 8 * (shape.n - shape.r) });
            let change = random.byte_not_zero();
            pack[place] ^= change;
            check_with_second(&format!("{}, byte {place} changed by {change}", name(shape)), &pack, &buffer)?;
            let length = random.below(300);
            let mut noise = random.bytes(length);
            if which % 2 == 0 && length >= 8 {
                // A header that is accepted, and random entries.
                noise[..4].copy_from_slice(&[shape.n as u8, shape.r as u8, random.below(shape.n + 2) as u8, 0]);
            }
            check_with_second(&format!("random bytes {noise:?}"), &noise, &buffer)?;
        }
        Ok(2 * EACH)
    })?;
    count("packs", 38 * 2 * EACH, compared)?;
    Ok(format!("{compared} packs: for each shape {EACH} with one byte changed, {EACH} of random bytes"))
}

/// Fails if the damages aren't as many as counted.
pub fn damages_are_all_there(stripes: &[Whole]) -> Outcome {
    for Whole { shape, stripe } in stripes {
        let all: Vec<Damage> = damages(shape, 0, stripe);
        count(&format!("{}: damages", name(shape)), DAMAGES, all.len())?;
    }
    Ok(format!("{DAMAGES} damages for each shape"))
}
