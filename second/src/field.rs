//! ECMA-130, Annexes A.3 and C.7: the field of 256 elements by x^8+x^4+x^3+x^2+1, α = (02).

use std::sync::LazyLock;

pub const ALPHA: u8 = 0x02;

/// Shifted by one place, and reduced where x^8 appears.
pub fn times_alpha(x: u8) -> u8 {
    let shifted = (x as u16) << 1;
    let reduced = if shifted & 0x100 != 0 { shifted ^ 0x11D } else { shifted };
    reduced as u8
}

/// The sum of `a` shifted to each place where `b` has a ONE.
fn shifted_and_added(a: u8, b: u8) -> u8 {
    let (mut sum, mut shifted, mut rest) = (0, a, b);
    while rest != 0 {
        if rest & 1 == 1 {
            sum ^= shifted;
        }
        shifted = times_alpha(shifted);
        rest >>= 1;
    }
    sum
}

/// Products, inverses and powers, each worked out once by its rule and kept, so that the tests, which ask for them all the time, are quick.
struct Tables {
    products: Vec<[u8; 256]>,
    inverses: Vec<Option<u8>>,
    powers: Vec<u8>,
}

static TABLES: LazyLock<Tables> = LazyLock::new(|| {
    let products: Vec<[u8; 256]> =
        (0..=255).map(|a| std::array::from_fn(|b| shifted_and_added(a, b as u8))).collect();
    let inverse = |x: usize| (1..=255).find(|&y| products[y as usize][x] == 1);
    let inverses = (0..256).map(inverse).collect();
    let powers = std::iter::successors(Some(1), |&x| Some(times_alpha(x))).take(1024).collect();
    Tables { products, inverses, powers }
});

pub fn product(a: u8, b: u8) -> u8 {
    TABLES.products[a as usize][b as usize]
}

/// α^n, for n below 1,024.
pub fn power(n: usize) -> u8 {
    TABLES.powers[n]
}

/// The y with y·x = 1, found by trying; 0 has none.
pub fn inverse(x: u8) -> Option<u8> {
    TABLES.inverses[x as usize]
}

#[cfg(test)]
mod tests {
    use super::*;

    #[test]
    fn figures() {
        assert_eq!(power(1), ALPHA);
        assert_eq!(power(8), 0x1D);
        assert_eq!(power(25), 0x03);
        assert_eq!(power(255), 0x01);
    }

    #[test]
    fn the_first_255_powers_are_all_the_bytes_but_0() {
        let mut powers: Vec<u8> = (0..255).map(power).collect();
        powers.sort();
        assert_eq!(powers, (1..=255).collect::<Vec<u8>>());
    }

    #[test]
    fn exponents_add() {
        for i in 0..255 {
            for j in 0..255 {
                assert_eq!(product(power(i), power(j)), power(i + j), "{i} {j}");
            }
        }
    }

    /// The product of two polynomials, with the division by the field's polynomial left to the end.
    fn multiplied_then_divided(a: u8, b: u8) -> u8 {
        let mut long = 0u32;
        for bit in 0..8 {
            if b >> bit & 1 == 1 {
                long ^= (a as u32) << bit;
            }
        }
        for bit in (8..15).rev() {
            if long >> bit & 1 == 1 {
                long ^= 0b1_0001_1101 << (bit - 8);
            }
        }
        long as u8
    }

    #[test]
    fn product_is_that_of_polynomials() {
        for a in 0..=255 {
            for b in 0..=255 {
                assert_eq!(product(a, b), multiplied_then_divided(a, b), "{a} {b}");
            }
        }
    }

    #[test]
    fn all_but_0_have_an_inverse() {
        assert_eq!(inverse(0), None);
        for x in 1..=255 {
            assert_eq!(product(x, inverse(x).unwrap()), 1, "{x}");
        }
        assert_eq!(inverse(2), Some(power(254)));
    }
}
