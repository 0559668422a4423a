//! Document 01, "Fractions and rebuilding": cutting a helper's fraction, and rebuilding one column from fractions.

use crate::elimination::{Solutions, System};
use crate::equations::{equations, Equation};
use crate::refusal::Refusal;
use crate::shape::{shape, Shape};

/// Cuts the fraction that a helper gives for the failed node, place u of group v: its symbols at the rows with a_v = u, rising.
pub fn cut(n: usize, r: usize, helper: usize, failed: usize, column: &[u8], fraction: &mut [u8]) -> Result<(), Refusal> {
    let shape = shape(n, r)?;
    if column.len() != shape.l || fraction.len() != shape.fraction_length() {
        return Err(Refusal::Length);
    }
    if !shape.has_node(helper) || !shape.has_node(failed) || helper == failed {
        return Err(Refusal::Node);
    }
    let (v, u) = shape.group_and_place(failed);
    for (place, a) in shape.rows_with_digit(v, u).into_iter().enumerate() {
        fraction[place] = column[a];
    }
    Ok(())
}

/// The symbol of helper i at row a, out of the n − 1 fractions end to end in rising node order. A phantom node's is 0. A symbol that no fraction
/// holds is never asked for: the equations read don't have it.
fn symbol_of_fractions(shape: &Shape, failed: usize, rows: &[usize], fractions: &[u8], i: usize, a: usize) -> u8 {
    if i > shape.n {
        return 0;
    }
    let order = if i < failed { i - 1 } else { i - 2 };
    let place = rows.iter().position(|&row| row == a).expect("the equations read have no other row of a helper");
    fractions[order * shape.fraction_length() + place]
}

/// The equations that rebuilding the failed node reads: those of every row with a_v = u.
fn equations_read(shape: &Shape, failed: usize) -> impl Iterator<Item = &'static Equation> {
    let shape = *shape;
    let (v, u) = shape.group_and_place(failed);
    equations(&shape).iter().filter(move |equation| shape.digit(equation.a, v) == u)
}

/// Rebuilds the column of the failed node: the one that, with the fractions, meets the equations of every row with a_v = u.
pub fn rebuild(n: usize, r: usize, failed: usize, fractions: &[u8], column: &mut [u8]) -> Result<(), Refusal> {
    let shape = shape(n, r)?;
    if fractions.len() != (shape.n - 1) * shape.fraction_length() || column.len() != shape.l {
        return Err(Refusal::Length);
    }
    if !shape.has_node(failed) {
        return Err(Refusal::Node);
    }
    let (v, u) = shape.group_and_place(failed);
    let rows = shape.rows_with_digit(v, u);
    let mut system = System::new(shape.l);
    for equation in equations_read(&shape, failed) {
        let known = equation.evaluate(|i, a| if i == failed { 0 } else { symbol_of_fractions(&shape, failed, &rows, fractions, i, a) });
        let unknown = equation.terms.iter().filter(|term| term.i == failed);
        system.add(unknown.map(|term| (term.a, term.coefficient)), known);
    }
    match system.solve() {
        Solutions::One(solution) => {
            column.copy_from_slice(&solution);
            Ok(())
        }
        other => panic!("not one column for the fractions: n = {n}, r = {r}, failed {failed}, {other:?}"),
    }
}
