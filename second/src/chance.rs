//! A small seeded generator (splitmix64): the same seed gives the same numbers
//! everywhere.

pub struct Chance {
    state: u64,
}

impl Chance {
    pub fn new(seed: u64) -> Chance {
        Chance { state: seed }
    }

    /// The chance of one feed of a bundle, which no other feed shares.
    pub fn of_feed(seed: u64, number: u64) -> Chance {
        let of_bundle = Chance::new(seed).draw();
        Chance::new(Chance::new(of_bundle ^ number).draw())
    }

    pub fn draw(&mut self) -> u64 {
        self.state = self.state.wrapping_add(0x9E37_79B9_7F4A_7C15);
        let mut mixed = self.state;
        mixed = (mixed ^ (mixed >> 30)).wrapping_mul(0xBF58_476D_1CE4_E5B9);
        mixed = (mixed ^ (mixed >> 27)).wrapping_mul(0x94D0_49BB_1331_11EB);
        mixed ^ (mixed >> 31)
    }

    /// A number from `least` to `most`, both included.
    pub fn between(&mut self, least: u32, most: u32) -> u32 {
        let choices = u64::from(most - least) + 1;
        least + (self.draw() % choices) as u32
    }

    /// A number from 0 up to, not including, `bound`.
    pub fn below(&mut self, bound: u32) -> u32 {
        self.between(0, bound - 1)
    }

    pub fn one_in(&mut self, times: u32) -> bool {
        self.below(times) == 0
    }

    pub fn pick<T: Copy>(&mut self, of: &[T]) -> T {
        of[self.below(of.len() as u32) as usize]
    }

    pub fn bytes(&mut self, count: u32) -> Vec<u8> {
        (0..count).map(|_| self.draw() as u8).collect()
    }
}

#[cfg(test)]
mod tests {
    use super::*;

    #[test]
    fn splitmix64_as_published() {
        let mut chance = Chance::new(1234567);
        let drawn = [chance.draw(), chance.draw(), chance.draw()];
        let published = [
            6457827717110365317,
            3203168211198807973,
            9817491932198370423,
        ];
        assert_eq!(drawn, published);
    }

    #[test]
    fn numbers_keep_within_their_bounds_and_reach_them() {
        let mut chance = Chance::new(1);
        let drawn: Vec<u32> = (0..200).map(|_| chance.between(3, 6)).collect();
        assert_eq!(drawn.iter().min(), Some(&3));
        assert_eq!(drawn.iter().max(), Some(&6));
        chance.between(0, u32::MAX);
        assert_eq!(chance.between(u32::MAX, u32::MAX), u32::MAX);
    }
}
