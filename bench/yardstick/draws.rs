//! The generator PCG32, with the one stream of numbers that mode sample of tempo takes.

const MULTIPLIER: u64 = 6364136223846793005;

pub struct Draws {
    state: u64,
}

impl Draws {
    pub fn new(seed: u64) -> Draws {
        let mut draws = Draws { state: seed.wrapping_add(1) };
        draws.step();
        draws
    }

    fn step(&mut self) {
        self.state = self.state.wrapping_mul(MULTIPLIER).wrapping_add(1);
    }

    /// The next number of 32 bits.
    pub fn draw(&mut self) -> i64 {
        let old = self.state;
        self.step();
        let mixed = (((old >> 18) ^ old) >> 27) as u32;
        i64::from(mixed.rotate_right((old >> 59) as u32))
    }

    pub fn four(&mut self) -> [i64; 4] {
        std::array::from_fn(|_| self.draw())
    }
}
