//! Natural numbers of any length, with just what the sine rule needs.

use std::cmp::Ordering;
use std::ops::{Add, Mul, Sub};

/// Limbs of 32 bits, the least significant first and the last one not 0,
/// so that equal numbers have equal limbs.
#[derive(Clone, Debug, PartialEq, Eq)]
pub struct Natural {
    limbs: Vec<u32>,
}

impl Natural {
    fn trimmed(mut limbs: Vec<u32>) -> Natural {
        while limbs.last() == Some(&0) {
            limbs.pop();
        }
        Natural { limbs }
    }

    /// Limb `i` widened, 0 beyond the last.
    fn limb(&self, i: usize) -> u64 {
        self.limbs.get(i).copied().map_or(0, u64::from)
    }

    pub fn power(&self, exponent: u32) -> Natural {
        (0..exponent).fold(Natural::from(1), |product, _| &product * self)
    }
}

/// The limb to keep and the carry.
fn split(sum: u64) -> (u32, u64) {
    (sum as u32, sum >> 32)
}

impl From<u128> for Natural {
    fn from(value: u128) -> Natural {
        Natural::trimmed((0..4).map(|i| (value >> (32 * i)) as u32).collect())
    }
}

impl Add for &Natural {
    type Output = Natural;

    fn add(self, other: &Natural) -> Natural {
        let length = self.limbs.len().max(other.limbs.len()) + 1;
        let mut carry = 0;
        let limb = |i| {
            let limb;
            (limb, carry) = split(self.limb(i) + other.limb(i) + carry);
            limb
        };
        Natural::trimmed((0..length).map(limb).collect())
    }
}

impl Sub for &Natural {
    type Output = Natural;

    fn sub(self, other: &Natural) -> Natural {
        assert!(self >= other, "a natural difference below 0");
        let mut borrow = 0;
        let limb = |i| {
            let taken = other.limb(i) + borrow;
            borrow = u64::from(self.limb(i) < taken);
            ((borrow << 32) + self.limb(i) - taken) as u32
        };
        Natural::trimmed((0..self.limbs.len()).map(limb).collect())
    }
}

impl Mul for &Natural {
    type Output = Natural;

    fn mul(self, other: &Natural) -> Natural {
        let mut limbs = vec![0; self.limbs.len() + other.limbs.len()];
        for (i, &a) in self.limbs.iter().enumerate() {
            let mut carry = 0;
            for (j, &b) in other.limbs.iter().enumerate() {
                // At most (2^32 - 1)^2 + 2 (2^32 - 1) = 2^64 - 1.
                let sum = u64::from(a) * u64::from(b) + u64::from(limbs[i + j]) + carry;
                (limbs[i + j], carry) = split(sum);
            }
            limbs[i + other.limbs.len()] = carry as u32;
        }
        Natural::trimmed(limbs)
    }
}

impl Ord for Natural {
    fn cmp(&self, other: &Natural) -> Ordering {
        let lengths = self.limbs.len().cmp(&other.limbs.len());
        lengths.then_with(|| self.limbs.iter().rev().cmp(other.limbs.iter().rev()))
    }
}

impl PartialOrd for Natural {
    fn partial_cmp(&self, other: &Natural) -> Option<Ordering> {
        Some(self.cmp(other))
    }
}

#[cfg(test)]
mod tests {
    use super::Natural;
    use crate::random::Random;

    const EDGES: [u64; 6] = [0, 1, 0xffff_ffff, 0x1_0000_0000, 0x1_0000_0001, u64::MAX];

    /// Pairs of edges, then pairs of random numbers of random lengths.
    fn pairs() -> Vec<(u128, u128)> {
        let mut random = Random::new(1);
        let mut number = || random.number() >> random.below(64);
        let random = (0..20_000).map(|_| (number(), number()));
        let edges = EDGES.iter().flat_map(|&a| EDGES.map(|b| (a, b)));
        let wide = |(a, b)| (u128::from(a), u128::from(b));
        edges.chain(random).map(wide).collect()
    }

    #[test]
    fn sums_products_and_order_are_those_of_u128() {
        for (a, b) in pairs() {
            let (x, y) = (Natural::from(a), Natural::from(b));
            assert_eq!(&x + &y, Natural::from(a + b), "{a} + {b}");
            assert_eq!(&x * &y, Natural::from(a * b), "{a} * {b}");
            assert_eq!(x.cmp(&y), a.cmp(&b), "{a} and {b}");
        }
    }

    #[test]
    fn differences_are_those_of_u128() {
        for (a, b) in pairs() {
            let (large, small) = (a * b + a.max(b), a.min(b));
            let difference = &Natural::from(large) - &Natural::from(small);
            assert_eq!(
                difference,
                Natural::from(large - small),
                "{large} - {small}"
            );
        }
    }

    #[test]
    #[should_panic(expected = "below 0")]
    fn a_difference_below_0_is_refused() {
        let _ = &Natural::from(1 << 64) - &Natural::from((1 << 64) + 1);
    }

    #[test]
    fn powers_are_repeated_products() {
        assert_eq!(Natural::from(0).power(0), Natural::from(1));
        assert_eq!(Natural::from(10).power(38), Natural::from(10_u128.pow(38)));
    }

    /// Beyond u128: (a + b)^2 = (a - b)^2 + 4 a b, and a sum undone.
    #[test]
    fn long_numbers_keep_the_laws() {
        for (small, large) in pairs().into_iter().take(1_000) {
            let b = &Natural::from(small).power(5) + &Natural::from(1);
            let a = &b + &Natural::from(large).power(7);
            let four_ab = &(&Natural::from(4) * &a) * &b;
            assert_eq!((&a + &b).power(2), &(&a - &b).power(2) + &four_ab);
            assert_eq!(&(&a + &b) - &b, a);
            assert!(&a * &a >= &b * &b);
        }
    }
}
