//! Chance that can be repeated: a small generator of numbers from a seed, and beside it the
//! generators of groups and whatever else is handed to two programs to be compared.

pub mod damage;
pub mod groups;
pub mod headers;
pub mod histories;
pub mod segments;

/// A linear congruence modulo 2^64 whose upper half is used, the lower bits being poor. The same
/// seed gives the same numbers on every machine.
#[derive(Clone, Debug)]
pub struct Random {
    state: u64,
}

impl Random {
    pub fn from_seed(seed: u64) -> Random {
        let mut random = Random { state: seed };
        // Neighbouring seeds start close together; a few steps part them.
        for _ in 0..8 {
            random.word();
        }
        random
    }

    /// 32 even bits.
    pub fn word(&mut self) -> u32 {
        self.state = self
            .state
            .wrapping_mul(6_364_136_223_846_793_005)
            .wrapping_add(1_442_695_040_888_963_407);
        (self.state >> 32) as u32
    }

    /// A number from `least` to `most`, both included.
    pub fn within(&mut self, least: usize, most: usize) -> usize {
        assert!(least <= most);
        let choices = (most - least) as u64 + 1;
        least + ((u64::from(self.word()) * choices) >> 32) as usize
    }

    /// True once in so many times.
    pub fn once_in(&mut self, times: usize) -> bool {
        self.within(1, times) == 1
    }

    pub fn coin(&mut self) -> bool {
        self.once_in(2)
    }

    pub fn byte(&mut self) -> u8 {
        (self.word() >> 24) as u8
    }

    pub fn bytes(&mut self, length: usize) -> Vec<u8> {
        (0..length).map(|_| self.byte()).collect()
    }

    /// One of these.
    pub fn one_of<T: Copy>(&mut self, choices: &[T]) -> T {
        choices[self.within(0, choices.len() - 1)]
    }

    /// Puts these in any order.
    pub fn shuffle<T>(&mut self, items: &mut [T]) {
        for place in (1..items.len()).rev() {
            items.swap(place, self.within(0, place));
        }
    }
}

#[cfg(test)]
mod tests {
    use super::Random;

    #[test]
    fn the_same_seed_gives_the_same_numbers() {
        let mut one = Random::from_seed(1);
        let mut again = Random::from_seed(1);
        let mut other = Random::from_seed(2);
        let numbers: Vec<u32> = (0..20).map(|_| one.word()).collect();
        assert_eq!(numbers, (0..20).map(|_| again.word()).collect::<Vec<_>>());
        assert_ne!(numbers, (0..20).map(|_| other.word()).collect::<Vec<_>>());
    }

    #[test]
    fn every_choice_comes_up() {
        let mut random = Random::from_seed(3);
        let mut seen = [0; 8];
        for _ in 0..8_000 {
            seen[random.within(2, 9) - 2] += 1;
        }
        assert!(seen.iter().all(|&times| times > 800));
    }

    #[test]
    fn shuffling_keeps_everything() {
        let mut items: Vec<u32> = (0..100).collect();
        Random::from_seed(4).shuffle(&mut items);
        assert_ne!(items, (0..100).collect::<Vec<_>>());
        items.sort_unstable();
        assert_eq!(items, (0..100).collect::<Vec<_>>());
    }
}
