//! Unsigned integers of any size, enough for exact binomials and products.

use std::cmp::Ordering;

/// Limbs of 32 bits, the lowest first, none of them a leading 0.
#[derive(Clone, Debug, PartialEq, Eq)]
pub struct Big {
    limbs: Vec<u32>,
}

impl Big {
    pub fn from(mut n: u128) -> Big {
        let mut limbs = Vec::new();
        while n > 0 {
            limbs.push(n as u32);
            n >>= 32;
        }
        Big { limbs }
    }

    fn trimmed(mut limbs: Vec<u32>) -> Big {
        while limbs.last() == Some(&0) {
            limbs.pop();
        }
        Big { limbs }
    }

    fn limb(&self, place: usize) -> u64 {
        self.limbs.get(place).copied().unwrap_or(0) as u64
    }

    pub fn add(&self, other: &Big) -> Big {
        let mut limbs = Vec::new();
        let mut carry = 0;
        for place in 0..self.limbs.len().max(other.limbs.len()) + 1 {
            let sum = self.limb(place) + other.limb(place) + carry;
            limbs.push(sum as u32);
            carry = sum >> 32;
        }
        Big::trimmed(limbs)
    }

    /// The difference; the other must not be larger.
    pub fn sub(&self, other: &Big) -> Big {
        assert!(*other <= *self, "a difference below 0");
        let mut limbs = Vec::new();
        let mut borrow = 0;
        for place in 0..self.limbs.len() {
            let taken = other.limb(place) + borrow;
            borrow = u64::from(self.limb(place) < taken);
            limbs.push(((borrow << 32) + self.limb(place) - taken) as u32);
        }
        Big::trimmed(limbs)
    }

    pub fn mul(&self, other: &Big) -> Big {
        let mut limbs = vec![0u32; self.limbs.len() + other.limbs.len()];
        for i in 0..self.limbs.len() {
            let mut carry = 0;
            for j in 0..other.limbs.len() {
                let product = self.limb(i) * other.limb(j) + limbs[i + j] as u64 + carry;
                limbs[i + j] = product as u32;
                carry = product >> 32;
            }
            limbs[i + other.limbs.len()] = carry as u32;
        }
        Big::trimmed(limbs)
    }

    /// Quotient and remainder.
    pub fn div_small(&self, divisor: u32) -> (Big, u32) {
        let mut limbs = vec![0u32; self.limbs.len()];
        let mut rest = 0u64;
        for place in (0..self.limbs.len()).rev() {
            let part = (rest << 32) + self.limb(place);
            limbs[place] = (part / divisor as u64) as u32;
            rest = part % divisor as u64;
        }
        (Big::trimmed(limbs), rest as u32)
    }

    /// The number, where it fits.
    pub fn to_u128(&self) -> Option<u128> {
        if self.limbs.len() > 4 {
            return None;
        }
        Some(
            self.limbs
                .iter()
                .rev()
                .fold(0, |n, &limb| (n << 32) + limb as u128),
        )
    }
}

impl Ord for Big {
    fn cmp(&self, other: &Big) -> Ordering {
        let by_length = self.limbs.len().cmp(&other.limbs.len());
        by_length.then_with(|| self.limbs.iter().rev().cmp(other.limbs.iter().rev()))
    }
}

impl PartialOrd for Big {
    fn partial_cmp(&self, other: &Big) -> Option<Ordering> {
        Some(self.cmp(other))
    }
}
