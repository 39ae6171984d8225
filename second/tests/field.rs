//! The proved field against this program's, at every element.

use second::{field, proved};

#[test]
fn every_byte_times_alpha() {
    for x in 0..=255 {
        assert_eq!(proved::times_alpha(x), field::times_alpha(x), "{x}");
    }
}

#[test]
fn every_product() {
    for a in 0..=255 {
        for b in 0..=255 {
            assert_eq!(proved::product(a, b), field::product(a, b), "{a} {b}");
        }
    }
}

/// 0 has no inverse, and 0 stands in its place.
#[test]
fn every_inverse() {
    for x in 0..=255 {
        assert_eq!(proved::inverse(x), field::inverse(x).unwrap_or(0), "{x}");
    }
}
