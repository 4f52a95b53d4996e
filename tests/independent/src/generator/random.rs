//! A small source of numbers, the same for the same seed on every machine (the splitmix64 sequence), and the choices
//! that the areas make with it.

/// The source. It is no secret and needs be none.
pub struct Random(u64);

impl Random {
    pub fn new(seed: u64) -> Random {
        Random(seed)
    }

    /// A source of its own for a name, so that one area's lines do not depend on another's.
    pub fn named(seed: u64, name: &str) -> Random {
        let mixed = name.bytes().fold(seed, |mixed, byte| Random(mixed ^ u64::from(byte)).draw().rotate_left(7));
        Random(mixed)
    }

    pub fn draw(&mut self) -> u64 {
        self.0 = self.0.wrapping_add(0x9E37_79B9_7F4A_7C15);
        let mut mixed = self.0;
        mixed = (mixed ^ (mixed >> 30)).wrapping_mul(0xBF58_476D_1CE4_E5B9);
        mixed = (mixed ^ (mixed >> 27)).wrapping_mul(0x94D0_49BB_1331_11EB);
        mixed ^ (mixed >> 31)
    }

    /// A number below a limit that is not 0. The small lean towards low numbers does not matter here.
    pub fn below(&mut self, limit: usize) -> usize {
        (self.draw() % limit as u64) as usize
    }

    /// A number from one to another, both included.
    pub fn within(&mut self, least: i64, most: i64) -> i64 {
        least + (self.draw() % (most - least + 1) as u64) as i64
    }

    /// True once in so many times.
    pub fn one_in(&mut self, times: usize) -> bool {
        self.below(times) == 0
    }

    pub fn pick<T: Copy>(&mut self, from: &[T]) -> T {
        from[self.below(from.len())]
    }

    pub fn byte(&mut self) -> u8 {
        self.draw() as u8
    }

    pub fn bytes(&mut self, count: usize) -> Vec<u8> {
        (0..count).map(|_| self.byte()).collect()
    }

    /// A byte that is none of those named.
    pub fn byte_but(&mut self, not: &[u8]) -> u8 {
        loop {
            let byte = self.byte();
            if !not.contains(&byte) {
                return byte;
            }
        }
    }

    /// A length near another: a little less or more, none, or any up to twice as much, but not that length itself.
    pub fn length_but(&mut self, not: usize) -> usize {
        loop {
            let length = match self.below(4) {
                0 => (not + self.below(3)).saturating_sub(1),
                1 => (not + self.below(9)).saturating_sub(4),
                2 => 0,
                _ => self.below(2 * not + 2),
            };
            if length != not {
                return length;
            }
        }
    }

    /// ROOM for a call that needs so much: enough, or too little if that is possible; seldom no ROOM at all.
    pub fn room(&mut self, needed: usize, too_little: bool) -> i64 {
        if self.one_in(80) {
            return self.pick(&[8193, -1, 8193, 16_384, -8192]);
        }
        let room = match self.below(4) {
            _ if too_little && needed > 0 => match self.below(3) {
                0 => needed - 1,
                1 => 0,
                _ => self.below(needed),
            },
            0 => needed,
            1 => needed + 1,
            2 => 8192,
            _ => needed + self.below(300),
        };
        room as i64
    }

    /// Which errors a line shall have: none, one, two or three of those named.
    pub fn errors(&mut self, of: &[u8]) -> Errors {
        let count = self.pick(&[0, 0, 0, 1, 1, 1, 1, 2, 2, 2, 3, 3]);
        Errors((0..count).map(|_| self.pick(of)).collect())
    }
}

/// The refusal numbers that a line is made for. The first of them in the device's order is to be the answer.
pub struct Errors(Vec<u8>);

impl Errors {
    pub fn of(numbers: &[u8]) -> Errors {
        Errors(numbers.to_vec())
    }

    pub fn is_empty(&self) -> bool {
        self.0.is_empty()
    }

    pub fn has(&self, number: u8) -> bool {
        self.0.contains(&number)
    }
}
