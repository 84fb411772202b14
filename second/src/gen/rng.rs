//! A small seeded generator (SplitMix64).

use crate::field::P;

/// A stream of random numbers that a seed fixes.
#[derive(Clone, Debug)]
pub struct Rng {
    state: u64,
}

impl Rng {
    /// The stream of a seed.
    pub fn new(seed: u64) -> Rng {
        Rng { state: seed }
    }

    /// The next 64 bits.
    pub fn next_u64(&mut self) -> u64 {
        self.state = self.state.wrapping_add(0x9E37_79B9_7F4A_7C15);
        let mut z = self.state;
        z = (z ^ (z >> 30)).wrapping_mul(0xBF58_476D_1CE4_E5B9);
        z = (z ^ (z >> 27)).wrapping_mul(0x94D0_49BB_1331_11EB);
        z ^ (z >> 31)
    }

    /// A number below a bound (0 for the bound 0).
    pub fn below(&mut self, bound: u64) -> u64 {
        ((u128::from(self.next_u64()) * u128::from(bound)) >> 64) as u64
    }

    /// An index below a length.
    pub fn index(&mut self, length: usize) -> usize {
        self.below(length as u64) as usize
    }

    /// A number from low to high, both included.
    pub fn between(&mut self, low: u64, high: u64) -> u64 {
        low + self.below(high.saturating_sub(low).saturating_add(1))
    }

    /// True in so many of a hundred cases.
    pub fn chance(&mut self, percent: u64) -> bool {
        self.below(100) < percent
    }

    /// One of a few.
    pub fn pick<T: Copy, const N: usize>(&mut self, from: [T; N]) -> T {
        from[self.index(N)]
    }

    /// Random bytes.
    pub fn bytes(&mut self, length: usize) -> Vec<u8> {
        (0..length).map(|_| self.next_u64() as u8).collect()
    }

    /// A seed; now and then all its bytes are the same.
    pub fn seed(&mut self) -> [u8; 32] {
        let byte = self.pick([0, 1, 127, 128, 255]);
        let same = self.chance(10);
        [(); 32].map(|()| if same { byte } else { self.next_u64() as u8 })
    }

    /// An element; now and then one at the edges.
    pub fn element(&mut self) -> u64 {
        if self.chance(10) {
            self.pick([0, 1, 2, P / 2, P - 2, P - 1])
        } else {
            self.below(P)
        }
    }

    /// A 4-byte number that is not an element.
    pub fn no_element(&mut self) -> u32 {
        let p = P as u32;
        let any = self.between(P, u64::from(u32::MAX)) as u32;
        self.pick([p, p + 1, p + 2, u32::MAX, any])
    }

    /// Puts a list in random order.
    pub fn shuffle<T>(&mut self, list: &mut [T]) {
        for i in (1..list.len()).rev() {
            let j = self.index(i + 1);
            list.swap(i, j);
        }
    }
}

#[cfg(test)]
mod tests {
    use super::*;

    #[test]
    fn known_stream_and_ranges() {
        // The first numbers of SplitMix64 from seed 0.
        let mut rng = Rng::new(0);
        assert_eq!(rng.next_u64(), 0xE220_A839_7B1D_CDAF);
        assert_eq!(rng.next_u64(), 0x6E78_9E6A_A1B9_65F4);
        for _ in 0..1000 {
            assert!((3..=7).contains(&rng.between(3, 7)));
            assert!(rng.below(5) < 5);
            assert!(rng.element() < P);
            assert!(u64::from(rng.no_element()) >= P);
        }
        assert_eq!(rng.below(0), 0);
        assert_eq!(rng.between(9, 9), 9);
    }
}
