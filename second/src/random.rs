//! A small deterministic generator (splitmix64) for tests.

pub struct Random(u64);

impl Random {
    pub fn new(seed: u64) -> Random {
        Random(seed)
    }

    pub fn number(&mut self) -> u64 {
        self.0 = self.0.wrapping_add(0x9E37_79B9_7F4A_7C15);
        let mut z = self.0;
        z = (z ^ (z >> 30)).wrapping_mul(0xBF58_476D_1CE4_E5B9);
        z = (z ^ (z >> 27)).wrapping_mul(0x94D0_49BB_1331_11EB);
        z ^ (z >> 31)
    }

    /// A number below `bound`, which is not 0.
    pub fn below(&mut self, bound: usize) -> usize {
        (self.number() % bound as u64) as usize
    }

    pub fn byte(&mut self) -> u8 {
        self.number() as u8
    }

    /// A byte other than 0: a change that is one.
    pub fn change(&mut self) -> u8 {
        1 + self.below(255) as u8
    }

    pub fn bytes(&mut self, count: usize) -> Vec<u8> {
        (0..count).map(|_| self.byte()).collect()
    }

    /// `count` different numbers below `bound`.
    pub fn places(&mut self, count: usize, bound: usize) -> Vec<usize> {
        assert!(count <= bound);
        let mut places = Vec::new();
        while places.len() < count {
            let place = self.below(bound);
            if !places.contains(&place) {
                places.push(place);
            }
        }
        places
    }

    /// An address of a Sector that is in range: two decimal digits each, below 100, 60 and 75, or (A0) and digits below 60 for the
    /// minute of a Lead-in Area.
    pub fn address(&mut self) -> [u8; 3] {
        let lead_in = self.below(4) == 0;
        let [minute, second, frame] = [if lead_in { 60 } else { 100 }, 60, 75].map(|bound| {
            let n = self.below(bound) as u8;
            n / 10 * 16 + n % 10
        });
        [if lead_in { minute + 0xA0 } else { minute }, second, frame]
    }
}

#[cfg(test)]
mod tests {
    use super::*;

    /// The published first output of splitmix64 for the seed 0.
    #[test]
    fn first_number() {
        assert_eq!(Random::new(0).number(), 0xE220_A839_7B1D_CDAF);
    }

    #[test]
    fn seeds_give_different_sequences() {
        assert_ne!(Random::new(7).bytes(100), Random::new(8).bytes(100));
    }

    #[test]
    fn every_change_occurs_and_none_is_zero() {
        let mut random = Random::new(1);
        let mut seen = [false; 256];
        for _ in 0..10_000 {
            seen[random.change() as usize] = true;
        }
        assert!(!seen[0] && seen[1..].iter().all(|&s| s));
    }

    #[test]
    fn places_differ() {
        let mut places = Random::new(2).places(26, 26);
        places.sort();
        assert_eq!(places, (0..26).collect::<Vec<_>>());
    }
}
