//! Tests of the program on packs that are accepted: whole stripes, and survivors chosen freely.

use crate::child::Program;
use second::compare::random::Random;
use second::compare::report::{count, in_two_threads, same, Outcome};
use second::compare::stripes::{lost_sets, lost_sets_up_to, name, Whole};
use second::pack::write_pack;
use second::text::text_of_stripe;

/// The pack that document 01 prints.
pub fn as_printed(program: &Program) -> Outcome {
    same("second", second::bench::PACK_TEXT, &second::text(&second::bench::PACK))?;
    program.check("the pack of document 01", &second::bench::PACK, second::bench::PACK_TEXT)?;
    count("bench cases through second", second::bench::CASES, second::bench::run(&second::bench::Second)?)?;
    second::bench::products()?;
    Ok("the pack of document 01 and its text, and cases A to M through second".to_string())
}

/// Packs of whole stripes: none lost, each node lost, and many other lost sets.
pub fn whole(program: &Program, stripes: &[Whole], seed: u64) -> Outcome {
    const MORE: usize = 40;
    let compared = in_two_threads(stripes.len(), |case| {
        let Whole { shape, stripe } = &stripes[stripes.len() - 1 - case];
        let mut random = Random::new(seed, case);
        let mut sets = lost_sets_up_to(shape, 1);
        let others: Vec<u32> = (2..=shape.r).flat_map(|lost| lost_sets(shape, lost)).collect();
        sets.extend((0..MORE).map(|_| others[random.below(others.len())]));
        for &lost in &sets {
            let what = format!("{}, lost set {lost:b}", name(shape));
            program.check(&what, &write_pack(shape, lost, stripe), &text_of_stripe(shape, lost, stripe))?;
        }
        Ok(sets.len())
    })?;
    count("packs", 38 * (1 + MORE) + 373, compared)?;
    Ok(format!("{compared} packs of whole stripes: for each shape none lost, each node lost, {MORE} other lost sets"))
}

/// Packs with survivors chosen freely, by elimination.
pub fn by_elimination(program: &Program, stripes: &[Whole], seed: u64) -> Outcome {
    const EACH: usize = 16;
    let compared = in_two_threads(stripes.len(), |case| {
        let Whole { shape, stripe } = &stripes[stripes.len() - 1 - case];
        let mut random = Random::new(seed, case);
        for which in 0..EACH {
            // In turn: r lost and survivors chosen freely, fewer lost of a whole stripe, fewer lost with a wrong byte, any number lost.
            let sets = match which % 4 {
                0 => lost_sets(shape, shape.r),
                3 => (0..1 << shape.n).collect(),
                _ => lost_sets_up_to(shape, shape.r - 1),
            };
            let lost = sets[random.below(sets.len())];
            let mut content = stripe.clone();
            if which % 4 == 0 {
                content = random.bytes(content.len());
            }
            let survivors: Vec<usize> = (1..=shape.n).filter(|&i| !second::filling::is_lost(lost, i)).collect();
            if which % 4 == 2 {
                let i = survivors[random.below(survivors.len())];
                content[shape.column(i)][random.below(shape.l)] ^= random.byte_not_zero();
            }
            let what = format!("{}, lost set {lost:b}", name(shape));
            let answer = program.check_with_second(&what, &write_pack(shape, lost, &content))?;
            let expected = match which % 4 {
                0 => answer.starts_with("shape "),
                1 => answer == text_of_stripe(shape, lost, stripe),
                2 => answer == "refused 5\n",
                _ => true,
            };
            same(&format!("{what}: second as known"), true, expected)?;
        }
        Ok(EACH)
    })?;
    count("packs", 38 * EACH, compared)?;
    Ok(format!("{compared} packs by elimination, {EACH} a shape: survivors chosen freely, whole, with a wrong byte, too many lost"))
}

/// Packs that come in pieces.
pub fn in_pieces(program: &Program, stripes: &[Whole]) -> Outcome {
    let compared = in_two_threads(stripes.len(), |case| {
        let Whole { shape, stripe } = &stripes[stripes.len() - 1 - case];
        let pack = write_pack(shape, 0b11, stripe);
        let expected = text_of_stripe(shape, 0b11, stripe);
        for piece in [7, pack.len() / 3, pack.len() - 1] {
            // Small pieces are for small packs: each costs a wait.
            let piece = piece.max(pack.len() / 12);
            program.check_in_pieces(&format!("{}, in pieces of {piece} bytes", name(shape)), &pack, piece, &expected)?;
        }
        Ok(3)
    })?;
    count("packs", 38 * 3, compared)?;
    Ok(format!("{compared} packs given in pieces, 3 ways a shape"))
}
