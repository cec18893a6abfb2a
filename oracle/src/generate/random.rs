//! Chance from a seed (splitmix64), the same on every machine.

#[derive(Clone)]
pub struct Random {
    state: u64,
}

impl Random {
    pub fn from_seed(seed: u64) -> Self {
        Random { state: seed }
    }

    /// The seeds of neighbours are neighbours, so they are mixed before use.
    pub fn mixed(seed: u64) -> Self {
        Random::from_seed(Random::from_seed(seed).number())
    }

    /// The seed of a case by its number, in a run with this seed.
    pub fn case_seed(seed: u64, number: usize) -> u64 {
        Random::mixed(seed ^ Random::mixed(number as u64).number()).number()
    }

    pub fn number(&mut self) -> u64 {
        self.state = self.state.wrapping_add(0x9E37_79B9_7F4A_7C15);
        let mut mixed = self.state;
        mixed = (mixed ^ (mixed >> 30)).wrapping_mul(0xBF58_476D_1CE4_E5B9);
        mixed = (mixed ^ (mixed >> 27)).wrapping_mul(0x94D0_49BB_1331_11EB);
        mixed ^ (mixed >> 31)
    }

    /// A number from 0 to `end` - 1.
    pub fn below(&mut self, end: usize) -> usize {
        (self.number() % end.max(1) as u64) as usize
    }

    /// A number from `low` to `high`, both included.
    pub fn between(&mut self, low: usize, high: usize) -> usize {
        low + self.below(high - low + 1)
    }

    pub fn percent(&mut self, chance: usize) -> bool {
        self.below(100) < chance
    }

    pub fn pick<'a, T>(&mut self, from: &'a [T]) -> &'a T {
        &from[self.below(from.len())]
    }

    /// A byte a field may hold: 32 to 255 but for the bar.
    pub fn field_byte(&mut self) -> u8 {
        match self.below(10) {
            0..=6 => *self.pick(b"ABCDEFGHKLMNOPRSTUVabcdefghijklmnoprstuv 0123456789.,-/"),
            7 => self.between(127, 255) as u8,
            _ => match self.between(32, 255) as u8 {
                crate::BAR => b' ',
                byte => byte,
            },
        }
    }

    pub fn text(&mut self, length: usize) -> Vec<u8> {
        (0..length).map(|_| self.field_byte()).collect()
    }

    pub fn digits(&mut self, length: usize) -> Vec<u8> {
        (0..length).map(|_| b'0' + self.below(10) as u8).collect()
    }
}
