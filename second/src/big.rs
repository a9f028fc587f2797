//! Big natural numbers: just the operations that the rules of the tables need, done as on paper.

use std::cmp::Ordering;

/// A natural number as 64-bit digits, the lowest first; the highest is never zero, and zero has no digits.
#[derive(Clone, Debug, PartialEq, Eq)]
pub struct Natural {
    digits: Vec<u64>,
}

impl Natural {
    pub fn new(value: u64) -> Natural {
        Natural::trimmed(vec![value])
    }

    /// 2^exponent.
    pub fn two_to(exponent: u64) -> Natural {
        let mut digits = vec![0; (exponent / 64) as usize];
        digits.push(1 << (exponent % 64));
        Natural { digits }
    }

    fn trimmed(mut digits: Vec<u64>) -> Natural {
        while digits.last() == Some(&0) {
            digits.pop();
        }
        Natural { digits }
    }

    /// The product, digit by digit as on paper.
    pub fn times(&self, other: &Natural) -> Natural {
        let mut digits = vec![0u64; self.digits.len() + other.digits.len()];
        for (i, &a) in self.digits.iter().enumerate() {
            let mut carry = 0u128;
            for (j, &b) in other.digits.iter().enumerate() {
                let sum = a as u128 * b as u128 + digits[i + j] as u128 + carry;
                digits[i + j] = sum as u64;
                carry = sum >> 64;
            }
            digits[i + other.digits.len()] = carry as u64;
        }
        Natural::trimmed(digits)
    }

    pub fn plus(&self, other: &Natural) -> Natural {
        let mut digits = Vec::new();
        let mut carry = 0u128;
        for i in 0..self.digits.len().max(other.digits.len()) {
            let a = *self.digits.get(i).unwrap_or(&0) as u128;
            let b = *other.digits.get(i).unwrap_or(&0) as u128;
            digits.push((a + b + carry) as u64);
            carry = (a + b + carry) >> 64;
        }
        digits.push(carry as u64);
        Natural::trimmed(digits)
    }

    /// self^exponent: for each binary digit of the exponent, from the top, a squaring, and where it is 1 one more factor.
    pub fn power(&self, exponent: u32) -> Natural {
        let mut result = Natural::new(1);
        for bit in (0..32 - exponent.leading_zeros()).rev() {
            result = result.times(&result);
            if exponent >> bit & 1 == 1 {
                result = result.times(self);
            }
        }
        result
    }
}

impl Ord for Natural {
    /// More digits is more; with as many, the highest digit that differs decides.
    fn cmp(&self, other: &Natural) -> Ordering {
        let by_length = self.digits.len().cmp(&other.digits.len());
        by_length.then_with(|| self.digits.iter().rev().cmp(other.digits.iter().rev()))
    }
}

impl PartialOrd for Natural {
    fn partial_cmp(&self, other: &Natural) -> Option<Ordering> {
        Some(self.cmp(other))
    }
}

#[cfg(test)]
mod tests {
    use super::{Natural, Ordering};

    /// The number in base 16, to be held against numbers known by heart.
    fn hex(n: &Natural) -> String {
        let mut text = String::new();
        for digit in n.digits.iter().rev() {
            text += &format!("{digit:016x}");
        }
        text.trim_start_matches('0').to_string()
    }

    #[test]
    fn products_and_sums_carry() {
        let m = Natural::new(u64::MAX);
        assert_eq!(hex(&m.times(&m)), "fffffffffffffffe0000000000000001");
        assert_eq!(hex(&m.plus(&Natural::new(1))), "10000000000000000");
        assert_eq!(m.plus(&Natural::new(1)), Natural::two_to(64));
    }

    #[test]
    fn powers_are_repeated_products() {
        let mut product = Natural::new(1);
        for exponent in 0..60 {
            assert_eq!(Natural::new(1_000_003).power(exponent), product);
            product = product.times(&Natural::new(1_000_003));
        }
        assert_eq!(Natural::new(2).power(1200), Natural::two_to(1200));
        assert_eq!(hex(&Natural::new(10).power(25)), "84595161401484a000000");
    }

    #[test]
    fn order_looks_at_the_highest_difference() {
        let low = Natural::two_to(128).plus(&Natural::new(u64::MAX));
        let high = Natural::two_to(128).plus(&Natural::two_to(64));
        assert!(low < high);
        assert_eq!(high.cmp(&low), Ordering::Greater);
        assert!(Natural::new(u64::MAX) < Natural::two_to(64));
        assert!(Natural::new(0) < Natural::new(1));
        assert_eq!(Natural::new(0).times(&high), Natural::new(0));
    }
}
