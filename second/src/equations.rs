//! Document 01, "The equations": weights, the equations as rows of coefficients, and the test of a stripe.

use crate::field::{point, power, product, sum, GAMMA};
use crate::refusal::Refusal;
use crate::shape::{shape, Shape};
use std::sync::OnceLock;

/// One coefficient of an equation and the symbol it belongs to: the one of node i at row a.
#[derive(Clone, Copy, PartialEq, Eq, Debug)]
pub struct Term {
    pub i: usize,
    pub a: usize,
    pub coefficient: u8,
}

/// The equation of row a and power t: coefficients over the symbols of all m × r nodes. A symbol that isn't listed has coefficient 0.
#[derive(Clone, PartialEq, Eq, Debug)]
pub struct Equation {
    pub a: usize,
    pub t: usize,
    pub terms: Vec<Term>,
}

/// What testing answers.
#[derive(Clone, Copy, PartialEq, Eq, Debug)]
pub enum Tested {
    Whole,
    /// The lowest failing row, and in it the lowest t.
    Fails {
        a: usize,
        t: usize,
    },
}

/// The weight of node i at row a.
pub fn weight(shape: &Shape, i: usize, a: usize) -> Vec<Term> {
    let (v, u) = shape.group_and_place(i);
    let a_v = shape.digit(a, v);
    let own = |coefficient| Term { i, a, coefficient };
    let other = Term { i: shape.node(v, a_v), a: shape.with_digit(a, v, u), coefficient: 1 };
    if u == a_v {
        vec![own(1)]
    } else if u > a_v {
        vec![own(1), other]
    } else {
        vec![own(GAMMA), other]
    }
}

/// The equation of row a and power t: the sum over all nodes of point i to the power t times the weight of node i.
pub fn equation(shape: &Shape, a: usize, t: usize) -> Equation {
    let symbols = shape.nodes_with_phantoms() * shape.l;
    let mut coefficients = vec![0; symbols];
    for i in 1..=shape.nodes_with_phantoms() {
        let factor = power(point(i), t);
        for term in weight(shape, i, a) {
            let place = (term.i - 1) * shape.l + term.a;
            coefficients[place] = sum(coefficients[place], product(factor, term.coefficient));
        }
    }
    let mut terms = Vec::new();
    for (place, &coefficient) in coefficients.iter().enumerate() {
        if coefficient != 0 {
            terms.push(Term { i: place / shape.l + 1, a: place % shape.l, coefficient });
        }
    }
    Equation { a, t, terms }
}

/// All r × l equations of a shape, in rising order of row, then t. They are worked out once for each shape and kept, which saves time only.
pub fn equations(shape: &Shape) -> &'static [Equation] {
    static KEPT: [[OnceLock<Vec<Equation>>; 17]; 5] = [const { [const { OnceLock::new() }; 17] }; 5];
    KEPT[shape.r][shape.n].get_or_init(|| {
        let mut all = Vec::new();
        for a in 0..shape.l {
            for t in 0..shape.r {
                all.push(equation(shape, a, t));
            }
        }
        all
    })
}

impl Equation {
    /// The sum of the equation, where `symbol` gives the symbol of a node at a row.
    pub fn evaluate(&self, symbol: impl Fn(usize, usize) -> u8) -> u8 {
        let mut total = 0;
        for term in &self.terms {
            total = sum(total, product(term.coefficient, symbol(term.i, term.a)));
        }
        total
    }
}

/// The symbol of node i at row a of a stripe. A phantom node's is 0.
pub fn symbol_of(shape: &Shape, stripe: &[u8], i: usize, a: usize) -> u8 {
    if i > shape.n {
        return 0;
    }
    stripe[(i - 1) * shape.l + a]
}

/// Tests a stripe: every equation in rising order of row, then t.
pub fn test(n: usize, r: usize, stripe: &[u8]) -> Result<Tested, Refusal> {
    let shape = shape(n, r)?;
    if stripe.len() != shape.stripe_length() {
        return Err(Refusal::Length);
    }
    for equation in equations(&shape) {
        if equation.evaluate(|i, a| symbol_of(&shape, stripe, i, a)) != 0 {
            return Ok(Tested::Fails { a: equation.a, t: equation.t });
        }
    }
    Ok(Tested::Whole)
}

#[cfg(test)]
mod tests {
    use super::*;

    #[test]
    fn phantom_weight_of_case_c() {
        let shape = shape(3, 2).unwrap();
        let stripe = [4, 0, 0, 12, 6, 15, 12, 30, 2, 12, 0, 5];
        let mut total = 0;
        for term in weight(&shape, 4, 1) {
            total = sum(total, product(term.coefficient, symbol_of(&shape, &stripe, term.i, term.a)));
        }
        assert_eq!(total, 5);
    }
}
