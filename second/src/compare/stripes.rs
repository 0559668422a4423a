//! Stripes to compare with: one whole stripe a shape, found by elimination, and stripes whose lowest failing equation is chosen.

use super::random::Random;
use super::report::{count, in_two_threads, same, Report};
use crate::elimination::Solutions;
use crate::equations::{test, Tested};
use crate::filling::{fill_parity, parity_set, solve_lost, write_lost};
use crate::shape::{accepted_shapes, Shape};
use std::sync::Mutex;

/// A shape and a whole stripe of it.
#[derive(Clone, Debug)]
pub struct Whole {
    pub shape: Shape,
    pub stripe: Vec<u8>,
}

/// The first test of a comparison: the whole stripes that the others compare with, one a shape.
pub fn stripes_to_compare(report: &mut Report, seed: u64) -> Vec<Whole> {
    let mut stripes = Vec::new();
    report.test("whole stripes", || {
        stripes = whole_stripes(seed)?;
        count("whole stripes", 38, stripes.len())?;
        Ok(format!("{} whole stripes, one a shape, by elimination", stripes.len()))
    });
    stripes
}

/// One whole stripe of each accepted shape: random data, parity by elimination, tested by every equation.
pub fn whole_stripes(seed: u64) -> Result<Vec<Whole>, String> {
    let shapes = accepted_shapes();
    let made = Mutex::new(vec![None; shapes.len()]);
    in_two_threads(shapes.len(), |case| {
        // The largest come first, so that the two threads end together.
        let case = shapes.len() - 1 - case;
        let shape = shapes[case];
        let mut stripe = Random::new(seed, case).bytes(shape.stripe_length());
        same("second's parity", Ok(()), fill_parity(shape.n, shape.r, &mut stripe))?;
        same("second's test of it", Ok(Tested::Whole), test(shape.n, shape.r, &stripe))?;
        made.lock().expect("no thread failed")[case] = Some(Whole { shape, stripe });
        Ok(1)
    })?;
    let made = made.into_inner().expect("no thread failed");
    Ok(made.into_iter().map(|whole| whole.expect("every case was gone through")).collect())
}

/// A stripe with random data that fails first at row a and power t: the sums of later equations are random.
pub fn stripe_that_fails_at(shape: &Shape, random: &mut Random, a: usize, t: usize) -> Vec<u8> {
    let mut stripe = random.bytes(shape.stripe_length());
    let mut sums = vec![0; shape.l * shape.r];
    for sum in &mut sums[a * shape.r + t..] {
        *sum = random.byte();
    }
    sums[a * shape.r + t] = random.byte_not_zero();
    let parity = parity_set(shape);
    let Solutions::One(solution) = solve_lost(shape, parity, &stripe, |row, power| sums[row * shape.r + power]) else {
        panic!("parity always has one solution");
    };
    write_lost(shape, parity, &solution, &mut stripe);
    stripe
}

/// A short name of a shape, for the lines that are printed.
pub fn name(shape: &Shape) -> String {
    format!("n = {}, r = {}", shape.n, shape.r)
}

/// Every lost set of exactly `count` nodes, rising.
pub fn lost_sets(shape: &Shape, count: usize) -> Vec<u32> {
    (0..1_u32 << shape.n).filter(|lost| lost.count_ones() as usize == count).collect()
}

/// Every lost set of at most `count` nodes, rising.
pub fn lost_sets_up_to(shape: &Shape, count: usize) -> Vec<u32> {
    (0..1_u32 << shape.n).filter(|lost| lost.count_ones() as usize <= count).collect()
}

/// Writes random bytes over the columns of a lost set.
pub fn spoil(shape: &Shape, random: &mut Random, lost: u32, stripe: &mut [u8]) {
    for i in crate::filling::lost_nodes(shape, lost) {
        for byte in &mut stripe[shape.column(i)] {
            *byte = random.byte();
        }
    }
}
