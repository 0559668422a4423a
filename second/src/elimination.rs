//! Not a part of document 01: Gaussian elimination over the field of 256 numbers, all equations and all unknowns at once.

use crate::field::{product, quotient, sum};

/// How many solutions a system has, and the one if there is one.
#[derive(Clone, PartialEq, Eq, Debug)]
pub enum Solutions {
    None,
    One(Vec<u8>),
    Several,
}

/// Equations in unknowns. A row holds the coefficients of all unknowns and then the constant, eight numbers to a word, the first the lowest.
pub struct System {
    unknowns: usize,
    rows: Vec<Vec<u64>>,
}

/// Number `place` of a row.
fn number(row: &[u64], place: usize) -> u8 {
    (row[place / 8] >> (place % 8 * 8)) as u8
}

/// Eight numbers, each multiplied by 2: shifted by one bit, and 285 taken off where bit 8 came up.
fn doubled(word: u64) -> u64 {
    let high = word >> 7 & 0x0101_0101_0101_0101;
    (word << 1 & 0xFEFE_FEFE_FEFE_FEFE) ^ high ^ high << 2 ^ high << 3 ^ high << 4
}

/// Adds a row times a factor to another, from word `from` on. `multiples` holds the row times 1, 2, 4 and so on up to 128: their sum over the bits
/// of the factor is the product.
fn add_multiple(target: &mut [u64], multiples: &[Vec<u64>], factor: u8, from: usize) {
    for (bit, multiple) in multiples.iter().enumerate() {
        if factor >> bit & 1 == 1 {
            for (word, add) in target[from..].iter_mut().zip(&multiple[from..]) {
                *word ^= add;
            }
        }
    }
}

/// A row times 1, 2, 4 and so on up to 128.
fn multiples(row: &[u64]) -> Vec<Vec<u64>> {
    let mut all = vec![row.to_vec()];
    for bit in 1..8 {
        all.push(all[bit - 1].iter().map(|&word| doubled(word)).collect());
    }
    all
}

impl System {
    pub fn new(unknowns: usize) -> System {
        System { unknowns, rows: Vec::new() }
    }

    /// Adds an equation: the sum of coefficient times unknown, over the (unknown, coefficient) given, plus the constant is 0.
    pub fn add(&mut self, coefficients: impl Iterator<Item = (usize, u8)>, constant: u8) {
        let mut numbers = vec![0; self.unknowns + 1];
        for (unknown, coefficient) in coefficients {
            assert!(unknown < self.unknowns, "unknown {unknown} isn't one of {}", self.unknowns);
            numbers[unknown] = sum(numbers[unknown], coefficient);
        }
        numbers[self.unknowns] = constant;
        let mut row = Vec::new();
        for eight in numbers.chunks(8) {
            let mut word = 0;
            for (place, &number) in eight.iter().enumerate() {
                word |= u64::from(number) << (place * 8);
            }
            row.push(word);
        }
        self.rows.push(row);
    }

    /// Solves the system.
    pub fn solve(mut self) -> Solutions {
        // Down: for each unknown one row is chosen and scaled to coefficient 1, and the unknown is taken out of all rows below.
        let mut chosen = 0;
        let mut several = false;
        for unknown in 0..self.unknowns {
            let Some(found) = (chosen..self.rows.len()).find(|&row| number(&self.rows[row], unknown) != 0) else {
                several = true;
                continue;
            };
            self.rows.swap(chosen, found);
            let (above, below) = self.rows.split_at_mut(chosen + 1);
            let row = &mut above[chosen];
            let inverse = quotient(1, number(row, unknown)).expect("the row was chosen with a coefficient that isn't 0");
            let mut scaled = vec![0; row.len()];
            add_multiple(&mut scaled, &multiples(row), inverse, 0);
            *row = scaled;
            let multiples = multiples(row);
            for target in below {
                let factor = number(target, unknown);
                if factor != 0 {
                    add_multiple(target, &multiples, factor, unknown / 8);
                }
            }
            chosen += 1;
        }
        // Every row that wasn't chosen has lost all its unknowns: its constant must be 0.
        if self.rows[chosen..].iter().any(|row| number(row, self.unknowns) != 0) {
            return Solutions::None;
        }
        if several {
            return Solutions::Several;
        }
        // Up: row j gives unknown j from those after it. Addition is its own opposite, so no sign is to be changed.
        let mut solution = vec![0; self.unknowns];
        for unknown in (0..self.unknowns).rev() {
            let row = &self.rows[unknown];
            let mut value = number(row, self.unknowns);
            for (later, &solved) in solution.iter().enumerate().skip(unknown + 1) {
                let coefficient = number(row, later);
                if coefficient != 0 {
                    value = sum(value, product(coefficient, solved));
                }
            }
            solution[unknown] = value;
        }
        Solutions::One(solution)
    }
}

#[cfg(test)]
mod tests {
    use super::*;

    #[test]
    fn words_are_doubled_as_numbers_are() {
        for value in 0..=255_u8 {
            let word = doubled(u64::from_le_bytes([value, 0, 255, value, 128, 1, value, value]));
            let expected = [value, 0, 255, value, 128, 1, value, value].map(|each| product(each, 2));
            assert_eq!(word.to_le_bytes(), expected);
        }
    }

    #[test]
    fn none_one_and_several() {
        let mut system = System::new(2);
        system.add([(0, 3), (1, 1)].into_iter(), 7);
        system.add([(0, 1), (1, 1)].into_iter(), 5);
        // 3x + y = 7 and x + y = 5: 2x = 2, so x = 1 and y = 4.
        assert_eq!(system.solve(), Solutions::One(vec![1, 4]));
        let mut system = System::new(2);
        system.add([(0, 1), (1, 2)].into_iter(), 5);
        system.add([(0, 2), (1, 4)].into_iter(), 10);
        assert_eq!(system.solve(), Solutions::Several);
        let mut system = System::new(2);
        system.add([(0, 1), (1, 2)].into_iter(), 5);
        system.add([(0, 2), (1, 4)].into_iter(), 11);
        assert_eq!(system.solve(), Solutions::None);
    }
}
