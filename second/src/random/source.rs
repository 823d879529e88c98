//! The source of randomness (splitmix64) and the numbers that are worth trying.

/// A splitmix64 generator. Equal seeds give equal runs on every machine.
#[derive(Clone, Debug)]
pub struct Random {
    state: u64,
}

impl Random {
    pub fn new(seed: u64) -> Random {
        let mut random = Random { state: seed };
        // Neighbouring seeds should not start alike.
        random.state = random.word() ^ seed.rotate_left(32);
        random
    }

    pub fn word(&mut self) -> u64 {
        self.state = self.state.wrapping_add(0x9e37_79b9_7f4a_7c15);
        let mut mixed = self.state;
        mixed = (mixed ^ (mixed >> 30)).wrapping_mul(0xbf58_476d_1ce4_e5b9);
        mixed = (mixed ^ (mixed >> 27)).wrapping_mul(0x94d0_49bb_1331_11eb);
        mixed ^ (mixed >> 31)
    }

    /// A number from 0 up to, but not including, the bound.
    pub fn below(&mut self, bound: usize) -> usize {
        assert!(bound > 0, "nothing is below zero");
        (self.word() % bound as u64) as usize
    }

    /// A number from the first to the last, both included.
    pub fn between(&mut self, first: usize, last: usize) -> usize {
        first + self.below(last - first + 1)
    }

    pub fn chance(&mut self, percent: usize) -> bool {
        self.below(100) < percent
    }

    pub fn pick<T: Copy>(&mut self, choices: &[T]) -> T {
        choices[self.below(choices.len())]
    }

    pub fn shuffle<T>(&mut self, items: &mut [T]) {
        for last in (1..items.len()).rev() {
            items.swap(last, self.below(last + 1));
        }
    }

    /// Different items, `count` of them or all there are, in random order.
    pub fn some_of<T: Copy>(&mut self, items: &[T], count: usize) -> Vec<T> {
        let mut chosen = items.to_vec();
        self.shuffle(&mut chosen);
        chosen.truncate(count);
        chosen
    }

    /// A byte that is not zero.
    pub fn nonzero_byte(&mut self) -> u8 {
        self.between(1, 255) as u8
    }

    /// The bits of a finite real: an everyday number, an edge case, or any bits at all.
    pub fn finite_bits(&mut self) -> u64 {
        match self.below(4) {
            0 => (self.below(2001) as f64 / 8.0 - 125.0).to_bits(),
            1 => self.pick(&EDGE_REALS).to_bits(),
            2 => (self.between(0, 4) as f64 - 2.0).to_bits(),
            _ => self.any_finite_bits(),
        }
    }

    fn any_finite_bits(&mut self) -> u64 {
        loop {
            let bits = self.word();
            if f64::from_bits(bits).is_finite() {
                return bits;
            }
        }
    }

    /// The bits of an infinity or of a number that is none.
    pub fn unfinite_bits(&mut self) -> u64 {
        let exponent = 0x7ff0_0000_0000_0000;
        let sign = self.word() & 0x8000_0000_0000_0000;
        match self.below(4) {
            0 => sign | exponent,
            1 => sign | exponent | 1,
            2 => sign | exponent | 0x0008_0000_0000_0000,
            _ => exponent | self.word(),
        }
    }
}

const EDGE_REALS: [f64; 10] = [
    0.0,
    -0.0,
    5e-324,
    -5e-324,
    2.225_073_858_507_201e-308,
    f64::MIN_POSITIVE,
    f64::MAX,
    f64::MIN,
    f64::EPSILON,
    0.1,
];
