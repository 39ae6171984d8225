//! Document 02, 7: lost bytes.

use super::*;

/// All codewords that agree with the word but at two places, by trying.
fn by_trying(word: &[u8], marked: &[usize]) -> Vec<Vec<u8>> {
    let mut fits = Vec::new();
    for a in 0..=255 {
        for b in 0..=255 {
            let mut tried = word.to_vec();
            (tried[marked[0]], tried[marked[1]]) = (a, b);
            if is_codeword(&tried, 4) {
                fits.push(tried);
            }
        }
    }
    fits
}

#[test]
fn two_lost_bytes_as_by_trying() {
    let mut random = Random::new(21);
    for code in [CODES[2], CODES[3]] {
        for wrong in 0..2 {
            let mut word = some_codeword(&mut random, code);
            let places = random.places(2 + wrong, word.len());
            for &place in &places {
                word[place] ^= random.change();
            }
            let found = agreeing(&word, &places[..2], 4);
            assert_eq!(found.iter().cloned().collect::<Vec<_>>(), by_trying(&word, &places[..2]));
            assert_eq!(found.is_some(), wrong == 0);
        }
    }
}

/// Up to four lost bytes come back. With one to three a wrong byte besides is found out; with four it never is.
#[test]
fn lost_bytes_come_back() {
    let mut random = Random::new(22);
    for code in [CODES[2], CODES[3]] {
        for count in 0..=4 {
            for _ in 0..100 {
                let right = some_codeword(&mut random, code);
                let places = random.places(count + 1, right.len());
                let mut word = right.clone();
                for &place in &places[..count] {
                    word[place] = random.byte();
                }
                assert_eq!(agreeing(&word, &places[..count], 4), Some(right));
                word[places[count]] ^= random.change();
                assert_eq!(agreeing(&word, &places[..count], 4).is_some(), count == 4);
            }
        }
    }
}
