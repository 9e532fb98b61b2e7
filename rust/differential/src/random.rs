//! A small generator of random numbers (splitmix64): the same numbers for the same seed everywhere.

pub struct Random {
    state: u64,
}

impl Random {
    pub fn new(seed: u64) -> Random {
        Random { state: seed }
    }

    /// The generator of one round of a run.
    pub fn of_round(seed: u64, round: u64) -> Random {
        let mut random = Random::new(seed ^ round.wrapping_mul(0xD6E8_FEB8_6659_FD93));
        random.next();
        random
    }

    pub fn next(&mut self) -> u64 {
        self.state = self.state.wrapping_add(0x9E37_79B9_7F4A_7C15);
        let mut z = self.state;
        z = (z ^ (z >> 30)).wrapping_mul(0xBF58_476D_1CE4_E5B9);
        z = (z ^ (z >> 27)).wrapping_mul(0x94D0_49BB_1331_11EB);
        z ^ (z >> 31)
    }

    /// A number below `limit`, which is at least 1.
    pub fn below(&mut self, limit: usize) -> usize {
        (self.next() % limit as u64) as usize
    }

    /// A number from `least` to `most`.
    pub fn between(&mut self, least: usize, most: usize) -> usize {
        least + self.below(most - least + 1)
    }

    /// True once in `times`.
    pub fn once_in(&mut self, times: usize) -> bool {
        self.below(times) == 0
    }

    pub fn byte(&mut self) -> u8 {
        self.next() as u8
    }

    pub fn pick<T: Copy>(&mut self, from: &[T]) -> T {
        from[self.below(from.len())]
    }

    pub fn bytes(&mut self, length: usize) -> Vec<u8> {
        (0..length).map(|_| self.byte()).collect()
    }

    /// Changes one byte, if there is one, in one of the usual ways.
    pub fn change_byte(&mut self, bytes: &mut [u8]) {
        if bytes.is_empty() {
            return;
        }
        let at = self.below(bytes.len());
        let byte = bytes[at];
        bytes[at] = match self.below(6) {
            0 => byte.wrapping_add(1),
            1 => byte.wrapping_sub(1),
            2 => byte ^ 1 << self.below(8),
            3 => 0,
            4 => 0xFF,
            _ => self.byte(),
        };
    }

    /// Cuts bytes off, adds some, or changes one.
    pub fn damage(&mut self, bytes: &mut Vec<u8>) {
        match self.below(4) {
            0 => bytes.truncate(self.below(bytes.len() + 1)),
            1 => {
                let length = self.between(1, 3);
                bytes.extend(self.bytes(length));
            }
            _ => self.change_byte(bytes),
        }
    }

    /// A number from 1 to `limit`, sometimes 0 or past it: in 8, 16 or 32 bits it may look small.
    pub fn near(&mut self, limit: u64) -> u64 {
        match self.below(32) {
            0 => 0,
            1 => limit + 1,
            2 => self.next(),
            3 => (1 << self.pick(&[8, 16, 32, 63])) + self.next() % (limit + 1),
            4 => u64::MAX,
            _ => 1 + self.next() % limit.max(1),
        }
    }
}
