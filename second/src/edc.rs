//! ECMA-130, clause 14.3: the EDC, by division bit by bit.

/// x^32+x^31+x^16+x^15+x^4+x^3+x+1 without its highest power: bit n stands for x^n.
pub const POLYNOMIAL: u32 = 1 << 31 | 1 << 16 | 1 << 15 | 1 << 4 | 1 << 3 | 1 << 1 | 1;

/// What division leaves of the polynomial that the bits form, the least significant bit of each byte first and the first
/// bit the highest power. Bit n of the answer stands for x^n.
pub fn remainder(bytes: &[u8]) -> u32 {
    let mut register = 0u32;
    for byte in bytes {
        for bit in 0..8 {
            let highest = register >> 31;
            register = register << 1 | (byte >> bit & 1) as u32;
            if highest == 1 {
                register ^= POLYNOMIAL;
            }
        }
    }
    register
}

/// The same with x^31 in bit 0 and x^0 in bit 31: the register as programs with tables keep it.
pub fn reflected_remainder(bytes: &[u8]) -> u32 {
    remainder(bytes).reverse_bits()
}

/// The four bytes that, put after the data, leave no remainder: x^31 in the least significant bit of the first, x^0 in
/// the most significant bit of the last.
pub fn four_bytes(data: &[u8]) -> [u8; 4] {
    let left = remainder(&[data, &[0; 4]].concat());
    let mut four = [0; 4];
    for n in 0..32 {
        let bit = (left >> (31 - n) & 1) as u8;
        four[n / 8] |= bit << (n % 8);
    }
    four
}

#[cfg(test)]
mod tests {
    use super::*;
    use crate::random::Random;

    /// The product of two lists of coefficients, lowest power first.
    fn times(a: &[u8], b: &[u8]) -> Vec<u8> {
        let mut product = vec![0; a.len() + b.len() - 1];
        for (i, x) in a.iter().enumerate() {
            for (j, y) in b.iter().enumerate() {
                product[i + j] ^= x & y;
            }
        }
        product
    }

    /// Coefficients 0 to `degree`, of which those listed are 1.
    fn powers(degree: usize, listed: &[usize]) -> Vec<u8> {
        (0..=degree).map(|n| listed.contains(&n) as u8).collect()
    }

    fn whole_polynomial() -> Vec<u8> {
        times(&powers(16, &[16, 15, 2, 0]), &powers(16, &[16, 2, 1, 0]))
    }

    #[test]
    fn polynomial_is_the_product_in_14_3() {
        let whole = whole_polynomial();
        assert_eq!(whole, powers(32, &[32, 31, 16, 15, 4, 3, 1, 0]));
        for (n, &coefficient) in whole[..32].iter().enumerate() {
            assert_eq!(POLYNOMIAL >> n & 1, coefficient as u32);
        }
    }

    /// The published check value of this code.
    #[test]
    fn check_value() {
        assert_eq!(reflected_remainder(b"123456789\0\0\0\0"), 0x6EC2_EDC4);
        assert_eq!(four_bytes(b"123456789"), [0xC4, 0xED, 0xC2, 0x6E]);
    }

    #[test]
    fn multiples_of_the_polynomial_leave_nothing_and_a_rest_is_left() {
        let mut random = Random::new(1);
        for _ in 0..200 {
            let quotient: Vec<u8> = (0..8 * 100 - 32).map(|_| random.byte() & 1).collect();
            let rest = random.number() as u32;
            let mut multiple = times(&quotient, &whole_polynomial());
            for (n, coefficient) in multiple[..32].iter_mut().enumerate() {
                *coefficient ^= (rest >> n & 1) as u8;
            }
            let mut bytes = vec![0u8; 100];
            for (n, coefficient) in multiple.iter().rev().enumerate() {
                bytes[n / 8] |= coefficient << (n % 8);
            }
            assert_eq!(remainder(&bytes), rest);
        }
    }

    #[test]
    fn the_four_bytes_leave_nothing_and_any_others_something() {
        let mut random = Random::new(2);
        for length in 0..200 {
            let data = random.bytes(length);
            let mut whole = [data.as_slice(), &four_bytes(&data)].concat();
            assert_eq!(remainder(&whole), 0);
            whole[length + random.below(4)] ^= random.change();
            assert_ne!(remainder(&whole), 0);
        }
    }

    #[test]
    fn every_single_wrong_bit_leaves_something() {
        let mut random = Random::new(3);
        let data = random.bytes(100);
        let mut whole = [data.as_slice(), &four_bytes(&data)].concat();
        for bit in 0..8 * whole.len() {
            whole[bit / 8] ^= 1 << (bit % 8);
            assert_ne!(remainder(&whole), 0);
            whole[bit / 8] ^= 1 << (bit % 8);
        }
    }
}
