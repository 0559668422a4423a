//! Document 01, "Filling lost columns", and the filling of parity.

use crate::elimination::{Solutions, System};
use crate::equations::{equations, symbol_of};
use crate::refusal::Refusal;
use crate::shape::{shape, Shape};

/// Whether node i is in a lost set: bit i − 1.
pub fn is_lost(lost: u32, i: usize) -> bool {
    lost >> (i - 1) & 1 == 1
}

/// The nodes of a lost set, rising.
pub fn lost_nodes(shape: &Shape, lost: u32) -> Vec<usize> {
    (1..=shape.n).filter(|&i| is_lost(lost, i)).collect()
}

/// The lost set of all parity columns: nodes k + 1 to n.
pub fn parity_set(shape: &Shape) -> u32 {
    (shape.k + 1..=shape.n).map(|i| 1 << (i - 1)).sum()
}

/// Solves all r × l equations for all bytes of the lost columns. `wanted` gives what the sum of the equation of row a and power t shall be: 0 for a
/// whole stripe. The unknowns are ordered row by row, in a row node by node.
pub fn solve_lost(shape: &Shape, lost: u32, stripe: &[u8], wanted: impl Fn(usize, usize) -> u8) -> Solutions {
    let nodes = lost_nodes(shape, lost);
    let mut system = System::new(nodes.len() * shape.l);
    let unknown_of = |i: usize, a: usize| nodes.iter().position(|&node| node == i).map(|place| a * nodes.len() + place);
    for equation in equations(shape) {
        let known = equation.evaluate(|i, a| if unknown_of(i, a).is_some() { 0 } else { symbol_of(shape, stripe, i, a) });
        let unknown = equation.terms.iter().filter_map(|term| Some((unknown_of(term.i, term.a)?, term.coefficient)));
        system.add(unknown, known ^ wanted(equation.a, equation.t));
    }
    system.solve()
}

/// Writes the bytes of the lost columns, in the order of the unknowns.
pub fn write_lost(shape: &Shape, lost: u32, solution: &[u8], stripe: &mut [u8]) {
    let nodes = lost_nodes(shape, lost);
    for a in 0..shape.l {
        for (place, &i) in nodes.iter().enumerate() {
            stripe[shape.column(i)][a] = solution[a * nodes.len() + place];
        }
    }
}

/// Fills up to r lost columns. Bit i − 1 of the lost set is for node i.
pub fn fill(n: usize, r: usize, lost: u32, stripe: &mut [u8]) -> Result<(), Refusal> {
    let shape = shape(n, r)?;
    if stripe.len() != shape.stripe_length() {
        return Err(Refusal::Length);
    }
    if lost >> shape.n != 0 {
        return Err(Refusal::Node);
    }
    if lost.count_ones() as usize > shape.r {
        return Err(Refusal::TooManyLost);
    }
    match solve_lost(&shape, lost, stripe, |_, _| 0) {
        Solutions::One(solution) => {
            write_lost(&shape, lost, &solution, stripe);
            Ok(())
        }
        Solutions::None => Err(Refusal::NotWhole),
        Solutions::Several => panic!("several whole stripes with the same survivors: n = {n}, r = {r}, lost {lost:b}"),
    }
}

/// Fills the parity columns, k + 1 to n, so that the stripe is whole.
pub fn fill_parity(n: usize, r: usize, stripe: &mut [u8]) -> Result<(), Refusal> {
    let lost = parity_set(&shape(n, r)?);
    fill(n, r, lost, stripe)
}
