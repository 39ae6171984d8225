//! The proved EDC against division bit by bit.

use second::random::Random;
use second::{edc, proved};

/// The published check value of this code.
#[test]
fn check_value() {
    assert_eq!(proved::edc_remainder(b"123456789\0\0\0\0"), 0x6EC2_EDC4);
    assert_eq!(u32::from_le_bytes(proved::edc_parity(b"123456789")), 0x6EC2_EDC4);
}

/// Random bytes of every length from 0 to 3,000: what is left of them, and the four bytes that leave nothing.
#[test]
fn every_length() {
    let mut random = Random::new(1);
    for length in 0..=3_000 {
        let data = random.bytes(length);
        let left = edc::reflected_remainder(&data);
        assert_eq!(proved::edc_remainder(&data), left, "{length}");
        assert_eq!(proved::edc_holds(&data), left == 0, "{length}");
        let four = proved::edc_parity(&data);
        assert_eq!(four, edc::four_bytes(&data), "{length}");
        let mut whole = [data.as_slice(), &four].concat();
        assert!(proved::edc_holds(&whole), "{length}");
        whole[random.below(length + 4)] ^= random.change();
        assert!(!proved::edc_holds(&whole), "{length}");
    }
}
