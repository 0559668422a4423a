//! Document 01, "Shape": nodes, groups, places, rows and their digits, and where a column lies in a stripe.

use crate::refusal::Refusal;
use std::ops::Range;

/// An accepted shape.
#[derive(Clone, Copy, PartialEq, Eq, Debug)]
pub struct Shape {
    /// How many nodes there are.
    pub n: usize,
    /// How many of them hold parity. A group has as many places.
    pub r: usize,
    /// How many nodes hold data.
    pub k: usize,
    /// How many groups there are: n/r rounded up.
    pub m: usize,
    /// How many rows there are: r to the power m.
    pub l: usize,
}

/// The shape of n nodes with r parity, or refusal 1.
pub fn shape(n: usize, r: usize) -> Result<Shape, Refusal> {
    if !(2..=4).contains(&r) || n < r + 1 || n > 16 {
        return Err(Refusal::Shape);
    }
    let m = n.div_ceil(r);
    let mut l = 1;
    for _ in 0..m {
        l *= r;
    }
    if l > 256 {
        return Err(Refusal::Shape);
    }
    Ok(Shape { n, r, k: n - r, m, l })
}

/// Every accepted shape, in rising order of r, then n.
pub fn accepted_shapes() -> Vec<Shape> {
    let mut accepted = Vec::new();
    for r in 0..=20 {
        for n in 0..=20 {
            accepted.extend(shape(n, r));
        }
    }
    accepted
}

impl Shape {
    /// How many nodes there are with the phantom nodes that fill up the last group.
    pub fn nodes_with_phantoms(&self) -> usize {
        self.m * self.r
    }

    /// The group v (1 to m) and the place u (0 to r − 1) of node i: i = (v − 1) × r + u + 1.
    pub fn group_and_place(&self, i: usize) -> (usize, usize) {
        ((i - 1) / self.r + 1, (i - 1) % self.r)
    }

    /// The node at place u of group v.
    pub fn node(&self, v: usize, u: usize) -> usize {
        (v - 1) * self.r + u + 1
    }

    /// What digit v of a row counts: r to the power v − 1, since digit 1 is the lowest.
    fn digit_worth(&self, v: usize) -> usize {
        let mut worth = 1;
        for _ in 1..v {
            worth *= self.r;
        }
        worth
    }

    /// Digit a_v of row a.
    pub fn digit(&self, a: usize, v: usize) -> usize {
        a / self.digit_worth(v) % self.r
    }

    /// Row a with digit v set to u.
    pub fn with_digit(&self, a: usize, v: usize, u: usize) -> usize {
        a - self.digit(a, v) * self.digit_worth(v) + u * self.digit_worth(v)
    }

    /// The length of a stripe: n × l.
    pub fn stripe_length(&self) -> usize {
        self.n * self.l
    }

    /// The length of the data columns: k × l.
    pub fn record_length(&self) -> usize {
        self.k * self.l
    }

    /// The length of a fraction: l/r.
    pub fn fraction_length(&self) -> usize {
        self.l / self.r
    }

    /// Where the column of node i lies in a stripe.
    pub fn column(&self, i: usize) -> Range<usize> {
        (i - 1) * self.l..i * self.l
    }

    /// Whether i is a node number: 1 to n. A phantom node's isn't.
    pub fn has_node(&self, i: usize) -> bool {
        i >= 1 && i <= self.n
    }

    /// The rows with a_v = u, rising.
    pub fn rows_with_digit(&self, v: usize, u: usize) -> Vec<usize> {
        (0..self.l).filter(|&a| self.digit(a, v) == u).collect()
    }
}

#[cfg(test)]
mod tests {
    use super::*;

    #[test]
    fn accepted_as_printed() {
        let mut count = 0;
        for n in 0..300 {
            for r in 0..300 {
                let printed = (2..=4).contains(&r) && n > r && n <= 16 && (n, r) != (16, 3);
                assert_eq!(shape(n, r).is_ok(), printed);
                count += usize::from(printed);
            }
        }
        assert_eq!((count, accepted_shapes().len()), (38, 38));
        assert!(shape(usize::MAX, usize::MAX).is_err());
    }

    #[test]
    fn digits_make_the_row() {
        for shape in accepted_shapes() {
            for a in 0..shape.l {
                let mut rest = a;
                for v in 1..=shape.m {
                    assert_eq!(shape.digit(a, v), rest % shape.r);
                    rest /= shape.r;
                    for u in 0..shape.r {
                        let other = shape.with_digit(a, v, u);
                        for each in 1..=shape.m {
                            let expected = if each == v { u } else { shape.digit(a, each) };
                            assert_eq!(shape.digit(other, each), expected);
                        }
                    }
                }
            }
        }
    }
}
