//! Exact fractions over whole numbers of any size.

use std::cmp::Ordering;
use std::ops::{Add, Div, Mul, Sub};

/// A whole number, 64 bits a limb, lowest first, no zero limb at the top.
#[derive(Clone, Debug, PartialEq, Eq)]
pub struct Natural {
    limbs: Vec<u64>,
}

impl Natural {
    pub fn from(value: u64) -> Self {
        Natural::trimmed(vec![value])
    }

    fn trimmed(mut limbs: Vec<u64>) -> Self {
        while limbs.last() == Some(&0) {
            limbs.pop();
        }
        Natural { limbs }
    }

    fn is_zero(&self) -> bool {
        self.limbs.is_empty()
    }

    fn plus(&self, other: &Self) -> Self {
        let length = self.limbs.len().max(other.limbs.len());
        let mut limbs = Vec::with_capacity(length + 1);
        let mut carry = 0u128;
        for place in 0..length {
            let limb = |n: &Self| u128::from(n.limbs.get(place).copied().unwrap_or(0));
            carry += limb(self) + limb(other);
            limbs.push(carry as u64);
            carry >>= 64;
        }
        limbs.push(carry as u64);
        Natural::trimmed(limbs)
    }

    /// The difference; `other` is not above `self`.
    fn minus(&self, other: &Self) -> Self {
        let mut limbs = self.limbs.clone();
        let mut borrow = false;
        for (place, limb) in limbs.iter_mut().enumerate() {
            let taken = other.limbs.get(place).copied().unwrap_or(0);
            let (once, under) = limb.overflowing_sub(taken);
            let (twice, again) = once.overflowing_sub(u64::from(borrow));
            *limb = twice;
            borrow = under || again;
        }
        assert!(!borrow && other.limbs.len() <= self.limbs.len(), "difference below zero");
        Natural::trimmed(limbs)
    }

    fn times(&self, other: &Self) -> Self {
        let mut limbs = vec![0u64; self.limbs.len() + other.limbs.len()];
        for (i, &a) in self.limbs.iter().enumerate() {
            let mut carry = 0u128;
            for (j, &b) in other.limbs.iter().enumerate() {
                carry += u128::from(a) * u128::from(b) + u128::from(limbs[i + j]);
                limbs[i + j] = carry as u64;
                carry >>= 64;
            }
            limbs[i + other.limbs.len()] = carry as u64;
        }
        Natural::trimmed(limbs)
    }
}

impl Ord for Natural {
    fn cmp(&self, other: &Self) -> Ordering {
        let by_length = self.limbs.len().cmp(&other.limbs.len());
        by_length.then_with(|| self.limbs.iter().rev().cmp(other.limbs.iter().rev()))
    }
}

impl PartialOrd for Natural {
    fn partial_cmp(&self, other: &Self) -> Option<Ordering> {
        Some(self.cmp(other))
    }
}

/// upper/lower with a sign; the lower number is above 0. Not reduced.
#[derive(Clone, Debug)]
pub struct Fraction {
    negative: bool,
    upper: Natural,
    lower: Natural,
}

impl Fraction {
    pub fn of(upper: u64, lower: u64) -> Self {
        assert!(lower > 0, "division by zero");
        Fraction { negative: false, upper: Natural::from(upper), lower: Natural::from(lower) }
    }

    pub fn whole(value: u64) -> Self {
        Fraction::of(value, 1)
    }

    pub fn min(self, other: Self) -> Self {
        if other < self {
            other
        } else {
            self
        }
    }

    pub fn max(self, other: Self) -> Self {
        if other > self {
            other
        } else {
            self
        }
    }

    fn negated(mut self) -> Self {
        self.negative = !self.negative && !self.upper.is_zero();
        self
    }
}

impl Add for Fraction {
    type Output = Fraction;

    fn add(self, other: Fraction) -> Fraction {
        let left = self.upper.times(&other.lower);
        let right = other.upper.times(&self.lower);
        let lower = self.lower.times(&other.lower);
        let (negative, upper) = if self.negative == other.negative {
            (self.negative, left.plus(&right))
        } else if left >= right {
            (self.negative, left.minus(&right))
        } else {
            (other.negative, right.minus(&left))
        };
        Fraction { negative: negative && !upper.is_zero(), upper, lower }
    }
}

impl Sub for Fraction {
    type Output = Fraction;

    fn sub(self, other: Fraction) -> Fraction {
        Add::add(self, other.negated())
    }
}

impl Mul for Fraction {
    type Output = Fraction;

    fn mul(self, other: Fraction) -> Fraction {
        let upper = self.upper.times(&other.upper);
        let negative = self.negative != other.negative && !upper.is_zero();
        Fraction { negative, upper, lower: self.lower.times(&other.lower) }
    }
}

impl Div for Fraction {
    type Output = Fraction;

    fn div(self, other: Fraction) -> Fraction {
        assert!(!other.upper.is_zero(), "division by zero");
        let inverse = Fraction { negative: other.negative, upper: other.lower, lower: other.upper };
        self * inverse
    }
}

impl PartialEq for Fraction {
    fn eq(&self, other: &Self) -> bool {
        self.partial_cmp(other) == Some(Ordering::Equal)
    }
}

impl PartialOrd for Fraction {
    /// By cross-multiplying.
    fn partial_cmp(&self, other: &Self) -> Option<Ordering> {
        let left = self.upper.times(&other.lower);
        let right = other.upper.times(&self.lower);
        Some(match (self.negative, other.negative) {
            (false, false) => left.cmp(&right),
            (true, true) => right.cmp(&left),
            (false, true) => Ordering::Greater,
            (true, false) => Ordering::Less,
        })
    }
}

#[cfg(test)]
mod tests {
    use super::*;

    #[test]
    fn arithmetic() {
        let third = Fraction::of(1, 3);
        let half = Fraction::of(1, 2);
        assert!(third.clone() + half.clone() == Fraction::of(5, 6));
        assert!(third.clone() - half.clone() < Fraction::whole(0));
        assert!(third.clone() - half.clone() + half.clone() == Fraction::of(2, 6));
        assert!(
            (third.clone() - half.clone()) / (half.clone() - third.clone()) < Fraction::of(0, 1)
        );
        assert!(third / half == Fraction::of(2, 3));
    }

    #[test]
    fn large() {
        let big = Fraction::whole(u64::MAX);
        let cube = big.clone() * big.clone() * big.clone();
        let next = cube.clone() + Fraction::of(1, u64::MAX);
        assert!(next > cube);
        assert!(next.clone() - cube.clone() == Fraction::of(1, u64::MAX));
        assert!(cube / (big.clone() * big.clone()) == big);
        assert!(next != Fraction::whole(0));
    }
}
