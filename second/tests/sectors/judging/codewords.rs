//! Which P or Q codeword is named.

use super::*;

/// Each codeword with one of its two parity bytes wrong, alone and with every later one wrong too.
fn first_that_fails(number: u8, codewords: usize, positions: fn(usize) -> Vec<usize>) {
    let clean = sector(&mut Random::new(7), 1);
    let mut with_later = clean.clone();
    for n in (0..codewords).rev() {
        let parity = positions(n).split_off(positions(n).len() - 2);
        for &at in &parity {
            let mut alone = clean.clone();
            alone[at] ^= 1;
            assert_eq!(same_judged(&alone), refused(number, n));
        }
        with_later[parity[1]] ^= 1;
        assert_eq!(same_judged(&with_later), refused(number, n));
    }
}

#[test]
fn the_first_codeword_that_fails_is_named() {
    first_that_fails(13, P_CODEWORDS, p_positions);
    first_that_fails(14, Q_CODEWORDS, q_positions);
}

/// A wrong byte with the EDC worked out over it is seen by P, and with P parity too by Q: by the first codeword with a byte that differs.
#[test]
fn p_speaks_where_the_edc_is_content_and_q_where_p_is() {
    let clean = sector(&mut Random::new(8), 1);
    for at in [16, 100, 101, 1500, 2063] {
        let mut wrong = clean.clone();
        wrong[at] ^= 0x01;
        seal(&mut wrong);
        let first = |wrong: &[u8], codewords: usize, positions: fn(usize) -> Vec<usize>| {
            let differs = |n: &usize| positions(*n).iter().any(|&at| wrong[at] != clean[at]);
            (0..codewords).find(differs).expect("a byte differs")
        };
        wrong[2248..].copy_from_slice(&clean[2248..]);
        let q = first(&wrong, Q_CODEWORDS, q_positions);
        assert_eq!(same_judged(&wrong), refused(14, q), "byte {at}");
        wrong[2076..].copy_from_slice(&clean[2076..]);
        let p = first(&wrong, P_CODEWORDS, p_positions);
        assert_eq!(same_judged(&wrong), refused(13, p), "byte {at}");
    }
}
